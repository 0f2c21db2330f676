"""`Found`: the smallest fault that a search has left, with what is needed to see it again."""
import reprlib
import shlex
import traceback
from dataclasses import dataclass
from pathlib import Path
from typing import Any, Optional, Tuple

from .lines import Link
from .outcomes import UNSETTLED, WRONG, Outcome, Verdict
from .picks import PickedToxic
from .shell_client import Status

# Longer answers are shown cut.
SHOWN = reprlib.Repr()
SHOWN.maxstring = SHOWN.maxother = 400


@dataclass(frozen=True)
class Met:
    """What a connection met: the toxics that were applied to it, and the line of its link."""

    link: Link
    toxics: Tuple[PickedToxic, ...]

    def __str__(self) -> str:
        met = ", ".join(f"{toxic.stream} {toxic.short}" for toxic in self.toxics) or "no toxic"
        return f"{self.link}: {met}"


@dataclass(frozen=True, repr=False)
class Found:
    """A fault under which a client is wrong, as small as the search could make it.

    `kind` is `wrong answer`, `not settled`, `exception <class>`, `hang`, or `status <n>` of a command. `detail` is what came: the answer beside
    the right one, or the exception. It came in `failed` of the last `repeated` runs under `script` and `seed`; where `repeated` is 1 that is the run that
    showed it. `connections` is what each connection met in one that failed. `where` is the place of the client's own files where it failed, or the last
    line of a command's standard error. `hint` is the class of a library's exception, which `allowed` may name. `refused` are the proxies that refused
    connects. `folder` has
    `proxies.json`, `script.toml`, `seed`, `logs`, `report.html`, and `again.sh` and `test_found.py`, which run it again. `runs` and `seconds` are those
    of the search until then. `remembered` is its file where the search remembers what it finds. `places` are its faults in words, each with its stream and the
    number of its connection, or 0 for all.
    """

    script: str
    kind: str
    detail: str
    failed: int
    repeated: int
    connections: Tuple[Met, ...]
    seed: int
    runs: int
    seconds: float
    folder: Path
    where: str = ""
    hint: Optional[str] = None
    refused: Tuple[str, ...] = ()
    remembered: Optional[Path] = None
    places: Tuple[Tuple[str, str, int], ...] = ()

    @property
    def command(self) -> str:
        """The command that runs it again."""
        return shlex.join(["sh", str(self.folder / "again.sh")])

    @property
    def page(self) -> Path:
        """The page of its logs. It isn't there where no connection was made."""
        return self.folder / "report.html"

    @property
    def times(self) -> str:
        """How often it came, in words. One run isn't a repetition."""
        return f"in {self.failed} of {self.repeated} runs" if self.repeated > 1 else "in one run"

    def __str__(self) -> str:
        head = f"{self.kind} {self.times}, found and shrunk by {self.runs} runs in {self.seconds:.1f} s"
        place = f"at {self.where}" if self.where else ""
        allowed = f"If it may fail so: allowed=(.., {self.hint})" if self.hint else ""
        refused = "".join(f"{name} refuses connects\n" for name in self.refused)
        file = [] if self.remembered is None else [f"remembered in {self.remembered}"]
        return "\n".join([head, *filter(None, [self.detail, place, allowed]), "", refused + self.script, *map(str, self.connections), *file, self.command])

    def __repr__(self) -> str:
        return f"<Found: {self.kind} {self.times}; {self.command}>"


def why_wrong(outcome: Outcome, verdict: Verdict) -> str:
    """Why a run is wrong whose answer isn't. Empty where the answer is."""
    if verdict == UNSETTLED:
        return "`eventually` stayed false"
    return "the check refuses the run" if isinstance(outcome.answer, Status) else ""


def detail_of(outcome: Outcome, verdict: Verdict, right: Any = None) -> str:
    """What came of a run beside its verdict, for a person: its answer beside a right one, the traceback of its exception, or how it hung. Empty for a
    command's status."""
    if outcome.hung:
        after = "returned once its links were broken" if outcome.returned else "didn't return when its links were broken either"
        return f"no return within {outcome.seconds:.1f} s; it {after}"
    if outcome.error is not None:
        error = outcome.error
        return "".join(traceback.format_exception(type(error), error, error.__traceback__)).rstrip("\n")
    if isinstance(outcome.answer, Status) and verdict != WRONG:
        return ""
    return why_wrong(outcome, verdict) or f"answer {SHOWN.repr(outcome.answer)}\nright  {SHOWN.repr(right)}"
