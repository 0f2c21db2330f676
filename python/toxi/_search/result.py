"""`SearchResult`: what a search has found, what was flaky, and what was tried."""
import json
from dataclasses import dataclass
from typing import Dict, Optional, Tuple

from ..found import Found
from .about import About
from .memory import Remembered

# What ends a search, and the later one of two shards is told of both.
ENDINGS_OF_SEARCH = ("done", "max_found", "budget", "client_stuck", "interrupted")


@dataclass(frozen=True)
class Tried:
    """How many runs there were under a fault of a stream of a connection, and how many reached it. The connection is a number, or `all`."""

    fault: str
    stream: str
    connection: str
    runs: int
    reached: int

    def __str__(self) -> str:
        return f"{self.connection} {self.stream} {self.fault}: {self.runs} runs, {self.reached} reached"


@dataclass(frozen=True)
class Flaky:
    """A failure that came, but not in each repetition: its kind and its script."""

    kind: str
    script: str


@dataclass(frozen=True, repr=False)
class SearchResult:
    """What a search came to.

    `found` are the different faults, each with its folder, and `flaky` what came but didn't come again. `tried` counts the runs under each fault.
    `ended_by` is `done`, `budget`, `interrupted`, `max_found` or `client_stuck`. `phases` are those that were done: `boundaries`, `late answers`,
    `outages`, `drawn`. `limits` are the client's time limits, as silence has shown them. `runs` and `seconds` are those of the whole search.
    `remembered` are the files of what earlier searches have found, and what became of each. `about` says what it is of, for `toxi-merge`.
    """

    found: Tuple[Found, ...]
    flaky: Tuple[Flaky, ...]
    tried: Tuple[Tried, ...]
    ended_by: str
    phases: Tuple[str, ...]
    limits: Tuple[str, ...]
    runs: int
    seconds: float
    remembered: Tuple[Remembered, ...] = ()
    about: Optional[About] = None

    @property
    def first_phase_done(self) -> bool:
        """Whether the boundaries of the conversation were tried. A search that has found enough needs no more."""
        return "boundaries" in self.phases or self.ended_by == "max_found"

    @property
    def never_reached(self) -> Tuple[Tried, ...]:
        """What no run has reached."""
        return tuple(each for each in self.tried if not each.reached)

    def require_none(self) -> None:
        """Raises `AssertionError` where something was found, and where the first phase wasn't done."""
        __tracebackhide__ = True
        if self.found:
            raise AssertionError("\n\n".join(map(str, self.found)))
        if not self.first_phase_done:
            raise AssertionError(f"the search ended by {self.ended_by} before the boundaries were tried: {self.runs} runs in {self.seconds:.1f} s")

    @property
    def summary(self) -> str:
        """How far the search came, in a line."""
        what = f"{len(self.found)} found" if self.found else "nothing found"
        flaky = f", {len(self.flaky)} flaky" if self.flaky else ""
        return f"{what}{flaky} by {self.runs} runs in {self.seconds:.1f} s, ended by {self.ended_by}, phases done: {', '.join(self.phases) or 'none'}"

    def __str__(self) -> str:
        limits = [f"time limit {limit}" for limit in self.limits]
        flaky = [f"flaky: {each.kind}" for each in self.flaky]
        missed = [f"never reached: {each.connection} {each.stream} {each.fault}" for each in self.never_reached]
        return "\n".join([*(f"{found}\n" for found in self.found), *map(str, self.remembered), *flaky, *limits, *missed, self.summary])

    def __repr__(self) -> str:
        return f"<SearchResult: {self.summary}>"

    def members(self) -> Dict[str, object]:
        """All of it as a JSON object."""
        return {
            "about": None if self.about is None else self.about.members(),
            "found": [_found_members(found) for found in self.found],
            "flaky": [vars(each) for each in self.flaky],
            "tried": [vars(each) for each in self.tried],
            "ended_by": self.ended_by,
            "phases": list(self.phases),
            "limits": list(self.limits),
            "runs": self.runs,
            "seconds": round(self.seconds, 3),
            "remembered": [{"file": str(each.file), "kind": each.kind, "state": each.state} for each in self.remembered],
        }

    def json_text(self) -> str:
        """All of it as JSON."""
        return json.dumps(self.members(), indent=1) + "\n"

    def page_text(self) -> str:
        """All of it as one HTML page without a script."""
        from ..search_page import page_text

        return page_text(self)


def _found_members(found: Found) -> Dict[str, object]:
    names = ("kind", "detail", "where", "hint", "script", "failed", "repeated", "seed", "runs", "command")
    files = {"folder": str(found.folder), "remembered": None if found.remembered is None else str(found.remembered)}
    lists = {"refused": list(found.refused), "places": [list(place) for place in found.places], "connections": [str(met) for met in found.connections]}
    return {**{name: getattr(found, name) for name in names}, "seconds": round(found.seconds, 3), **files, **lists}
