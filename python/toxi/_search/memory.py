"""`Memory`: the faults that earlier searches of a client have found."""
import hashlib
import re
from dataclasses import dataclass, field
from pathlib import Path
from typing import Dict, Iterable, List, Optional, Tuple

from ..artifacts import safe_name
from ..base import StrPath
from ..errors import ToxiError
from ..outcomes import Verdict
from .cases import Case
from .failures import Failure
from .fault_file import FaultAbout, fault_text, read_fault

FAILS, MENDED, NOT_RUN, OTHER_UPSTREAMS = "fails", "mended", "not run", "other upstreams"


@dataclass(frozen=True)
class Remembered:
    """A fault that an earlier search has found: its file, the kind of failure that it was, and its `state` now.

    `state` is `fails`, in whatever way, `mended`, `not run` where the search ended before, or `other upstreams` where the names of the client's upstreams
    aren't those of the file.
    """

    file: Path
    kind: str
    state: str

    def __str__(self) -> str:
        return f"{self.state}: {self.file} ({self.kind})"


@dataclass
class Memory:
    """The files of one client, in a folder of their own, for upstreams of some names."""

    folder: Path
    upstreams: Tuple[str, ...]
    _files: Dict[Path, Tuple[Case, FaultAbout]] = field(default_factory=dict)

    @classmethod
    def of(cls, remember: Optional[StrPath], name: Optional[str], upstreams: Iterable[str]) -> Optional["Memory"]:
        """The memory in a folder, of a client by its name. None without both. Raises `ValueError` where one of them is missing."""
        if remember is None and name is None:
            return None
        if remember is None or not name:
            raise ValueError("what is found is remembered by a folder and a name: remember=DIR and name=NAME")
        return cls(Path(remember) / safe_name(name), tuple(upstreams))

    def read(self) -> List[Case]:
        """The faults that can be run, by the names of their files. Raises `ToxiError` for a file that can't be read, or a folder that can't be made."""
        try:
            self.folder.mkdir(parents=True, exist_ok=True)
        except OSError as error:
            raise ToxiError(f"{self.folder} can't be written: {error.strerror}") from None
        self._files = {path: read_fault(path) for path in sorted(self.folder.glob("*.toml"))}
        return [case for case, about in self._files.values() if about.is_of(self.upstreams)]

    def write(self, failure: Failure, seed: int) -> Path:
        """Writes a fault. The same fault has the same file."""
        case = failure.case
        about = FaultAbout(seed, str(failure.verdict), self.upstreams, tuple(sorted(case.refused)))
        digest = hashlib.sha256(f"{about.kind}\n{case.key}".encode()).hexdigest()[:8]
        path = self.folder / f"{re.sub(r'[^A-Za-z0-9]+', '-', about.kind)}-{digest}.toml"
        if not path.exists():
            path.write_text(fault_text(case, about), encoding="utf-8")
        return path

    def states(self, verdicts: Dict[str, Verdict]) -> Tuple[Remembered, ...]:
        """What became of each file, by the verdicts of the cases by their keys."""
        found = []
        for path, (case, about) in self._files.items():
            verdict = verdicts.get(case.key)
            state = OTHER_UPSTREAMS if not about.is_of(self.upstreams) else NOT_RUN if verdict is None else FAILS if verdict.is_fault else MENDED
            found.append(Remembered(path, about.kind, state))
        return tuple(found)
