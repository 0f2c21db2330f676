"""What a search knows of a client before its first fault: the recorded streams, and how long the client waits for an answer."""
from dataclasses import dataclass, replace
from typing import Dict, Iterable, List, Optional, Sequence, Tuple

from ..batches import BatchRun
from ..conversations import StreamBytes, StreamKey
from ..fault_points import FaultPoint
from .cases import Case

# Time limits are measured behind at most so many boundaries, of the first connections of each proxy.
MAX_MEASURED = 8
MEASURED_CONNECTIONS = 2
# A shorter limit can't be told from the time that a run takes, in milliseconds.
MIN_LIMIT = 10


@dataclass(frozen=True)
class TimeLimit:
    """How long the client waited under silence behind `offset` bytes of a connection's answers: `milliseconds`, of two digits."""

    proxy: str
    number: int
    offset: int
    milliseconds: int

    def __str__(self) -> str:
        return f"{self.proxy} {self.number} downstream {self.offset}: {self.milliseconds} ms"


@dataclass(frozen=True)
class Conversation:
    """The streams of runs without a fault, and the time limits that silence has shown."""

    streams: Sequence[StreamBytes]
    limits: Tuple[TimeLimit, ...] = ()

    @property
    def proxies(self) -> List[str]:
        """The proxies that have connections."""
        return list(dict.fromkeys(stream.proxy for stream in self.streams))

    @property
    def by_key(self) -> Dict[StreamKey, StreamBytes]:
        """The streams by proxy, number and direction."""
        return {stream.key: stream for stream in self.streams}

    def connections(self, proxy: str) -> int:
        """How many connections a proxy has without a fault."""
        return max((stream.number for stream in self.streams if stream.proxy == proxy), default=0)

    def times(self) -> List[int]:
        """The different time limits in milliseconds, in the order in which they were measured."""
        return list(dict.fromkeys(limit.milliseconds for limit in self.limits))

    def with_limits(self, runs: Iterable[BatchRun]) -> "Conversation":
        """With the time limits that runs of `measuring_cases` have shown."""
        found = [limit for run in runs for limit in [_limit_of(run)] if limit is not None]
        return replace(self, limits=tuple(found))


def measuring_cases(streams: Sequence[StreamBytes]) -> List[Case]:
    """Silence behind boundaries downstream: those of connection 1 and then 2."""
    found: List[Case] = []
    for number in range(1, MEASURED_CONNECTIONS + 1):
        for stream in streams:
            if stream.number == number and stream.stream == "downstream":
                offsets = [offset for offset in stream.boundaries if offset < stream.bytes]
                found += [Case.of(FaultPoint(*stream.key, "silent", offset)) for offset in offsets]
    return _spread(found, MAX_MEASURED)


def _spread(cases: Sequence[Case], most: int) -> List[Case]:
    """At most so many, evenly spread, the first included."""
    return list(cases) if len(cases) <= most else [cases[place * len(cases) // most] for place in range(most)]


def _limit_of(run: BatchRun) -> Optional[TimeLimit]:
    """The time limit that a run shows: from the request whose answer was dropped until the client closed its connection, or answered.

    Silence is logged only as what stays away. So it begins with the first request behind the last piece that came, or with that piece.
    """
    point, outcome = run.case.point, run.outcome
    if point is None or outcome is None or outcome.hung:
        return None
    streams = {stream.key: stream for stream in run.streams}
    down, up = streams.get((point.proxy, point.number, "downstream")), streams.get((point.proxy, point.number, "upstream"))
    if down is None or up is None:
        return None
    last = down.instants[-1] if down.instants else 0
    begun = next((instant for instant in up.instants if instant >= last), last)
    end = outcome.seconds * 1e6 if up.ended is None else min(up.ended, outcome.seconds * 1e6)
    milliseconds = _two_digits((end - begun) / 1000)
    return TimeLimit(point.proxy, point.number, point.offset, milliseconds) if milliseconds >= MIN_LIMIT else None


def _two_digits(value: float) -> int:
    return int(float(f"{value:.2g}")) if value >= 1 else 0
