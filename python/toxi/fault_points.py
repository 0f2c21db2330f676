"""Where a sweep lets a fault come: a fault behind so many bytes of a stream of a numbered connection, or of all."""
import re
from dataclasses import dataclass
from typing import Optional, Tuple, cast

from ._search.words import DELAYS, ENDINGS, FAULTS
from .base import STREAMS
from .conversations import StreamBytes
from .rules import Rule
from .toxics import Latency, LimitData, ResetPeer, Slicer, Stream, Timeout, Toxic

MICROS = 1_000_000
# Microseconds of a millisecond.
MILLIS = 1000
# A client that waits for bytes has read a slice by then. In microseconds.
SLICE_DELAY = 1000
# The part of a client's limit that the delays of a fault take.
DELAYED_PART = 0.1
# The number of a point of all connections, and its word.
ALL = 0
ALL_WORD = "all"

# The proxy, the number of the connection, the stream and the fault of a line of a sweep's table.
FaultLineKey = Tuple[str, int, str, str]

# A name may have spaces.
POINT = re.compile(rf"(.*) (\d+|{ALL_WORD}) ({'|'.join(STREAMS)}) (\d+) ({'|'.join(FAULTS)})(?: (\d+) ms)?", re.S)


@dataclass(frozen=True)
class FaultPoint:
    """A fault of a connection of a proxy, counted from 1, or of all connections, whose number is 0.

    `closed`, `reset` and `silent` come behind the first `offset` bytes of the stream. `sliced` cuts it into slices of `offset` bytes. `slow` delays each
    piece of it, and its `offset` is 0. `late` delays the piece behind `offset` bytes alone: what comes in the `window`, in milliseconds after
    the link's start. `delay` is in microseconds.
    """

    proxy: str
    number: int
    stream: str
    fault: str
    offset: int
    delay: int = 0
    window: Tuple[int, int] = (0, 0)

    def __str__(self) -> str:
        delay = f" {self.delay // 1000} ms" if self.fault in DELAYS else ""
        return f"{self.proxy} {self.connection} {self.stream} {self.offset} {self.fault}{delay}"

    @property
    def connection(self) -> str:
        """The number of the connection, or `all`."""
        return str(self.number) if self.number else ALL_WORD

    @classmethod
    def parsed(cls, text: str) -> "FaultPoint":
        """The point of a text such as `shop 1 downstream 17 closed`, without the window of a late piece. Raises `ValueError` for another text."""
        found = POINT.fullmatch(text)
        if found is None:
            raise ValueError(f"{text!r} isn't a point such as `shop 1 downstream 17 closed`")
        number = ALL if found[2] == ALL_WORD else int(found[2])
        return cls(found[1], number, found[3], found[5], int(found[4]), int(found[6] or 0) * 1000)

    @property
    def key(self) -> Tuple[str, int, str]:
        """The proxy, the number of the connection whose stream was recorded, and the stream. All connections are like the first."""
        return self.proxy, self.number or 1, self.stream

    @property
    def line(self) -> FaultLineKey:
        """What the points of a line of a sweep's table share: the proxy, the connection, the stream and the fault."""
        return self.proxy, self.number, self.stream, self.fault

    @property
    def toxic(self) -> Toxic:
        """The toxic that does it. One behind 0 bytes works from the start."""
        stream = cast(Stream, self.stream)
        if self.fault == "closed":
            return LimitData(stream=stream, bytes=self.offset)
        if self.fault == "reset":
            return ResetPeer(stream=stream, after=self.offset)
        if self.fault == "silent":
            return Timeout(stream=stream, after=self.offset)
        if self.fault == "sliced":
            return Slicer(stream=stream, average_size=self.offset, delay=self.delay)
        begin, end = self.window
        return Latency(stream=stream, latency=self.delay // 1000, from_=begin, until=end)

    def rule(self, proxy: str) -> Rule:
        """The rule that lets it come, on a proxy of this name."""
        last: Optional[int] = self.number or None
        return Rule(proxy, [self.toxic], first=self.number or 1, last=last)


def delay_of(fault: str, size: int, stream: StreamBytes, within: float) -> int:
    """The delay of each slice of `size` bytes, or of each piece that is slow, in microseconds: over a stream they add up to a part of the limit."""
    budget = within * DELAYED_PART * MICROS
    if fault == "sliced":
        return min(SLICE_DELAY, max(int(budget * size / stream.bytes), 1))
    # Each piece may be an answer that the next request waits for.
    return max(MILLIS, int(budget / max(len(stream.pieces), 1))) if fault == "slow" else 0


__all__ = ["ALL", "DELAYS", "ENDINGS", "FAULTS", "MILLIS", "FaultLineKey", "FaultPoint", "delay_of"]
