"""The rows of a sweep's table: neighbours of one outcome are one row."""
import itertools
from dataclasses import dataclass, replace
from typing import Dict, Iterable, List, Sequence, Tuple

from ._search.words import DELAYS
from .conversations import StreamBytes, StreamKey
from .fault_points import ALL, FAULTS, MILLIS, FaultPoint
from .lines import printed
from .outcomes import Kind, Verdict
from .rules import Rule

# Rows stand in this order of their kinds.
ORDER = (Kind.WRONG, Kind.HANG, Kind.FAILED, Kind.ALLOWED, Kind.RIGHT)
NOT_REACHED = "not reached"
# More rows of the slices of a stream than this are races.
MAX_RACED = 4


@dataclass(frozen=True)
class SweptRun:
    """A point that was run, its verdict, and whether its link came as far as the point. `detail` is a wrong answer, or an exception's text.

    `other_runs` counts the runs in which a failure was looked for again and didn't come.
    """

    point: FaultPoint
    verdict: Verdict
    reached: bool
    detail: str = ""
    other_runs: int = 0

    @property
    def fails(self) -> bool:
        """Whether the client is to be mended: not for what came once by chance."""
        return self.verdict.is_fault and not self.other_runs

    @property
    def outcome(self) -> str:
        """The outcome in words. A right answer whose link never came so far is `not reached`, and so is an allowed exception."""
        return self.verdict.text if self.reached or self.verdict.is_fault else NOT_REACHED

    @property
    def row_key(self) -> Tuple[object, ...]:
        """What neighbours of one row have in common. Where the point wasn't reached, it isn't told which exception was allowed."""
        return (*self.point.line, self.outcome, self.verdict.is_fault, self.reached, self.other_runs)


# The old name.
SweptPoint = SweptRun


@dataclass(frozen=True, repr=False)
class SweepRow:
    """Neighbours of one outcome: the offsets `offset` to `last_offset` in bytes, both included, of which `runs` were run.

    An outcome is `wrong answer`, `not settled`, `hang`, `exception <class>`, the class of an allowed exception, `right` or `not reached`. `first` is the first
    run. `delays` are the shortest and the longest in milliseconds where the fault is a delay. Slices that race are one row, `of` whose runs
    `runs` came to its outcome.
    """

    first: SweptRun
    last_offset: int
    runs: int
    delays: Tuple[int, int] = (0, 0)
    of: int = 0

    @property
    def proxy(self) -> str:
        """The name of the proxy."""
        return self.first.point.proxy

    @property
    def number(self) -> int:
        """The number of the proxy's connection, from 1, or 0 for all."""
        return self.first.point.number

    @property
    def stream(self) -> str:
        """`upstream` or `downstream`."""
        return self.first.point.stream

    @property
    def fault(self) -> str:
        """`closed`, `reset`, `silent`, `sliced`, `slow` or `late`."""
        return self.first.point.fault

    @property
    def offset(self) -> int:
        """The first offset."""
        return self.first.point.offset

    @property
    def outcome(self) -> str:
        """The outcome in words."""
        return self.first.outcome

    @property
    def fails(self) -> bool:
        """Whether the client is to be mended."""
        return self.first.fails

    @property
    def rule(self) -> Rule:
        """The rule that makes the first run again."""
        return self.first.point.rule(self.proxy)

    @property
    def offsets(self) -> str:
        """The offsets in words: `17`, or `0..31`."""
        return str(self.offset) if self.offset == self.last_offset else f"{self.offset}..{self.last_offset}"

    @property
    def connection(self) -> str:
        """The number of the connection, or `all`."""
        return self.first.point.connection

    @property
    def notes(self) -> str:
        """What else is to be said: that not all offsets were run, that the client failed before its link came so far, or that it failed once."""
        every = self.last_offset - self.offset + 1
        partly = f", {self.runs} of {every} offsets run" if self.runs < every and self.fault not in DELAYS and not self.of else ""
        mixed = f" in {self.runs} of {self.of} runs" if self.of else ""
        early = f", {NOT_REACHED}" if self.first.verdict.is_fault and not self.first.reached else ""
        return mixed + partly + early + (f", but not in {self.first.other_runs} more runs" if self.first.other_runs else "")

    @property
    def _by(self) -> str:
        shortest, longest = self.delays
        return "" if not longest else f" by {shortest} ms" if shortest == longest else f" by {shortest}..{longest} ms"

    def __str__(self) -> str:
        return f"{self.stream} {self.offsets} {self.fault}{self._by}: {self.outcome}{self.notes}"

    def __repr__(self) -> str:
        return f"<{printed(self.proxy)} {self.connection} {self}>"


def rows_of(swept: Iterable[SweptRun], streams: Iterable[StreamBytes]) -> List[SweepRow]:
    """The rows of what was swept: wrong answers and hangs first, then in the order of connections, streams, faults and offsets."""
    carried = {stream.key: stream.bytes for stream in streams}
    found: List[SweepRow] = []
    for _, line in itertools.groupby(ordered(swept), lambda each: each.point.line):
        points = list(line)
        rows = [_row(list(same), carried) for _, same in itertools.groupby(points, lambda each: each.row_key)]
        found += _raced(rows, len(points)) if points[0].point.fault == "sliced" and len(rows) > MAX_RACED else rows
    return sorted(found, key=_severity)


def _raced(rows: Sequence[SweepRow], of: int) -> List[SweepRow]:
    """Rows of slices that race: one row for each outcome, with a count."""
    outcomes = list(dict.fromkeys((row.outcome, row.fails) for row in rows))
    found = []
    for outcome in outcomes:
        same = [row for row in rows if (row.outcome, row.fails) == outcome]
        found.append(replace(same[0], last_offset=same[-1].last_offset, runs=sum(row.runs for row in same), of=of))
    return found


def unbroken_rows_of(swept: Iterable[SweptRun], streams: Iterable[StreamBytes]) -> List[SweepRow]:
    """As `rows_of`, but each offset of a row was run, and what is worst comes last."""
    carried = {stream.key: stream.bytes for stream in streams}
    numbered = enumerate(ordered(swept))
    grouped = itertools.groupby(numbered, lambda each: (*each[1].row_key, each[1].point.offset - each[0]))
    return sorted((_row([each for _, each in same], carried) for _, same in grouped), key=_severity, reverse=True)


def _row(same: Sequence[SweptRun], carried: Dict[StreamKey, int]) -> SweepRow:
    point, last = same[0].point, same[-1].point
    delays = sorted(each.point.delay // MILLIS for each in same) if point.fault in DELAYS else [0]
    return SweepRow(same[0], carried[point.key] if point.fault == "slow" else last.offset, len(same), (delays[0], delays[-1]))


def ordered(swept: Iterable[SweptRun]) -> List[SweptRun]:
    """In the order of connections, streams, faults and offsets. Those of all connections come last."""
    return sorted(swept, key=lambda each: _place(each.point))


def _place(point: FaultPoint) -> Tuple[bool, str, int, bool, int, int, int]:
    """All connections come last."""
    return point.number == ALL, point.proxy, point.number, point.stream == "downstream", FAULTS.index(point.fault), point.offset, point.delay


def _severity(row: SweepRow) -> Tuple[bool, int]:
    return row.outcome == NOT_REACHED, ORDER.index(row.first.verdict.kind)
