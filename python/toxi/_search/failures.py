"""`Failure`: a run in which a client is wrong, and what tells one failure from another."""
import os
import re
import site
import sys
import sysconfig
import traceback
from dataclasses import dataclass
from pathlib import Path
from typing import FrozenSet, Optional, Sequence, Tuple

from ..checks import PACKAGE
from ..outcomes import HANG, Kind, Outcome, Place, Verdict
from ..shell_client import Status
from .cases import Case

# A kind, where it came up, and the words of the faults with their streams.
FailureKey = Tuple[str, str, FrozenSet[Tuple[str, str]]]


@dataclass(frozen=True)
class Failure:
    """A case under which the client was wrong, the verdict, and how its run ended. `root` is the folder of the client's own files."""

    case: Case
    verdict: Verdict
    outcome: Outcome
    root: Path

    @property
    def is_hang(self) -> bool:
        """Whether it takes the whole limit each time."""
        return self.verdict == HANG

    @property
    def where(self) -> str:
        """The innermost place of the client's own files in an exception or a hang, and a command's last line of standard error. Empty for a wrong answer."""
        if self.verdict.kind is Kind.WRONG:
            return ""
        if isinstance(self.outcome.answer, Status):
            return self.outcome.answer.said
        error = self.outcome.error
        # An exception of a worker has its places beside it.
        if error is None or self.outcome.frames:
            return _innermost(self.outcome.frames, self.root)
        trace = traceback.extract_tb(error.__traceback__)
        return _innermost([(each.filename, each.lineno or 0, each.name) for each in trace], self.root)

    @property
    def key(self) -> FailureKey:
        """What two equal failures have in common: the kind, the place, and the faults by their words and streams."""
        # A line that a command printed may have a port or a time in it.
        where = re.sub(r"\d+", "0", self.where) if isinstance(self.outcome.answer, Status) else self.where
        return self.verdict.text, where, frozenset((word, stream) for word, stream, _ in self.case.places)

    def is_explained_by(self, key: FailureKey) -> bool:
        """Whether a known failure's faults are among those of this one, and it is the same else."""
        kind, where, faults = self.key
        return (kind, where) == key[:2] and key[2] <= faults


def _innermost(places: Sequence[Place], root: Path) -> str:
    own = [place for place in places if _is_own(place[0], root)]
    return f"{os.path.relpath(own[-1][0], root)}:{own[-1][1]} in {own[-1][2]}" if own else ""


def _is_own(file: str, root: Path) -> bool:
    """Whether a file is below the root, and neither an installed package's, nor Python's, nor ours."""
    path = os.path.abspath(file)
    foreign = [*site.getsitepackages(), sysconfig.get_path("stdlib"), sysconfig.get_path("platstdlib"), PACKAGE]
    return _is_below(path, str(root)) and not any(_is_below(path, folder) for folder in foreign if not _is_below(str(root), folder))


def _is_below(path: str, folder: str) -> bool:
    return path == folder or path.startswith(folder.rstrip(os.sep) + os.sep)


def allowed_hint(failure: Failure) -> Optional[str]:
    """The `allowed=` to write where the failure is an exception of a library. None for one of the client's own, and for what is no exception."""
    error = failure.outcome.error
    if error is None or failure.verdict.kind is not Kind.FAILED:
        return None
    module = type(error).__module__
    file = getattr(sys.modules.get(module), "__file__", None)
    if module == "__main__" or (file is not None and _is_own(file, failure.root)):
        return None
    return type(error).__qualname__ if module == "builtins" else f"{module}.{type(error).__qualname__}"
