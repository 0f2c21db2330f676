"""Which points a sweep runs: all of them, or as many as it may, the boundaries of what arrived first."""
import bisect
import itertools
import random
from collections import Counter
from dataclasses import dataclass
from typing import Iterable, Iterator, List, Mapping, Sequence, Set, Tuple

from ._search.conversation import TimeLimit
from ._search.phases import LATE_PARTS, late_point
from ._search.shards import Shard
from .conversations import StreamBytes
from .errors import ToxiError
from .fault_points import ALL, ENDINGS, FAULTS, MILLIS, FaultLineKey, FaultPoint, delay_of

# The heads of messages end within so many bytes of a stream. Half of the runs that aren't near a boundary are there.
HEAD = 512


@dataclass(frozen=True)
class ChosenPoints:
    """The points that are run, and how many there are of each line without a bound. The `first` of them are those at boundaries and of delays."""

    points: Sequence[FaultPoint]
    possible_of: Mapping[FaultLineKey, int]
    first: int = 0

    @property
    def possible(self) -> int:
        """How many points there are without a bound."""
        return sum(self.possible_of.values())

    @property
    def left_out(self) -> int:
        """How many points aren't run."""
        return self.possible - len(self.points)

    def part(self, shard: Shard) -> "ChosenPoints":
        """Those of a shard: its lines are whole."""
        sizes = Counter(point.line for point in self.points)
        own = set(shard.lines({line: sizes[line] for line in self.possible_of}))
        points = [point for point in self.points if point.line in own]
        first = sum(point.line in own for point in self.points[: self.first])
        return ChosenPoints(points, {line: possible for line, possible in self.possible_of.items() if line in own}, first)


@dataclass(frozen=True)
class Span:
    """The offsets of a stream at which a fault can come. Those in `boundaries` are at a boundary, those in `near` there or one byte beside it."""

    stream: StreamBytes
    fault: str
    offsets: range
    boundaries: Set[int]
    near: Set[int]
    within: float

    @property
    def line(self) -> FaultLineKey:
        """Its line of the table."""
        return (*self.stream.key, self.fault)

    def point(self, offset: int) -> FaultPoint:
        """The fault at an offset."""
        return FaultPoint(*self.stream.key, self.fault, offset, delay_of(self.fault, offset, self.stream, self.within))


def chosen_points(
    streams: Iterable[StreamBytes],
    faults: Sequence[str],
    *,
    most: int,
    every_silence: bool,
    within: float,
    seed: int,
    limits: Sequence[TimeLimit] = (),
    outages: bool = False,
) -> ChosenPoints:
    """The points of some streams, at most `most`: those near boundaries, some at the heads of streams, and others that are drawn.
    `within` is the client's limit in seconds, and `limits` are its time limits, by which answers come late. With `outages` there are endings of all
    connections at the boundaries too.

    Silences are those near boundaries alone, unless `every_silence`. Raises `ValueError` for a fault of another name, and for none.
    """
    _require_known(faults)
    recorded = list(streams)
    spans = [_span(stream, fault, within) for stream in recorded for fault in dict.fromkeys(faults) if fault != "late"]
    whole = [span for span in spans if span.fault != "silent" or every_silence]
    draw = random.Random(seed)
    chosen: List[FaultPoint] = []
    extra = [*_delayed(recorded, faults, limits), *(_outages(recorded, faults) if outages else ())]
    at, beside = _near_places(spans)
    chosen += _some(at, most, draw)
    chosen += extra[: most - len(chosen)]
    first = len(chosen)
    chosen += _some(beside, most - len(chosen), draw)
    heads = [(span, offset) for span in whole for offset in span.offsets[:HEAD] if offset not in span.near]
    chosen += _some(heads, (most - len(chosen)) // 2, draw)
    chosen += _drawn(whole, most - len(chosen), set(chosen), draw)
    possible = Counter({span.line: len(span.offsets if span in whole else span.near) for span in spans})
    possible.update(point.line for point in extra)
    return ChosenPoints(chosen, possible, first)


def _require_known(faults: Sequence[str]) -> None:
    if not faults:
        raise ValueError(f"no fault is named; there are {', '.join(FAULTS)}")
    unknown = [fault for fault in faults if fault not in FAULTS]
    if unknown:
        raise ValueError(f"no fault {unknown[0]!r}; there are {', '.join(FAULTS)}")


def _delayed(streams: Sequence[StreamBytes], faults: Sequence[str], limits: Sequence[TimeLimit]) -> Iterator[FaultPoint]:
    """Streams that are slow, and single pieces that are late, by parts of each time limit."""
    by_key = {stream.key: stream for stream in streams}
    if "late" in faults:
        for limit in limits:
            stream = by_key[limit.proxy, limit.number, "downstream"]
            yield from (late_point(stream, limit.offset, round(part * limit.milliseconds)) for part in LATE_PARTS)
    if "slow" in faults:
        for proxy, number, milliseconds in dict.fromkeys((limit.proxy, limit.number, limit.milliseconds) for limit in limits):
            for direction in ("downstream", "upstream"):
                yield from (FaultPoint(proxy, number, direction, "slow", 0, round(part * milliseconds) * MILLIS) for part in LATE_PARTS)


def _outages(streams: Sequence[StreamBytes], faults: Sequence[str]) -> Iterator[FaultPoint]:
    """Endings of all connections at the boundaries of the first one."""
    for stream in streams:
        if stream.number == 1:
            for fault in (fault for fault in ENDINGS if fault in faults):
                yield from (FaultPoint(stream.proxy, ALL, stream.stream, fault, offset) for offset in stream.boundaries)


def _some(places: Sequence[Tuple[Span, int]], most: int, draw: random.Random) -> List[FaultPoint]:
    """The points at some places: all of them, or `most` that are drawn, in order."""
    kept = places if len(places) <= most else [places[index] for index in sorted(draw.sample(range(len(places)), most))]
    return [span.point(offset) for span, offset in kept]


def _near_places(spans: Sequence[Span]) -> Tuple[List[Tuple[Span, int]], List[Tuple[Span, int]]]:
    """The offsets at boundaries, and those one byte beside them."""
    at = [(span, offset) for span in spans for offset in sorted(span.boundaries)]
    return at, [(span, offset) for span in spans for offset in sorted(span.near - span.boundaries)]


def repeated_points(streams: Iterable[StreamBytes], points: Iterable[FaultPoint], within: float) -> ChosenPoints:
    """Given points of some streams, with their delays. Raises `ToxiError` for one of a connection that the client doesn't make without a fault."""
    by_key = {stream.key: stream for stream in streams}
    found = []
    for point in points:
        if point.key not in by_key:
            made = ", ".join(f"{proxy} {number}" for proxy, number in dict.fromkeys(key[:2] for key in by_key))
            raise ToxiError(f"the client makes no connection of {point}, but {made}")
        found.append(_repeated(by_key[point.key], point, within))
    return ChosenPoints(found, Counter(point.line for point in found), len(found))


def _repeated(stream: StreamBytes, point: FaultPoint, within: float) -> FaultPoint:
    """The point with what its text doesn't tell: the window of a late piece, and a delay."""
    if point.fault == "late":
        return late_point(stream, point.offset, point.delay // MILLIS)
    if point.number == ALL or point.delay:
        return point
    return _span(stream, point.fault, within).point(point.offset)


def _span(stream: StreamBytes, fault: str, within: float) -> Span:
    """Every offset of an ending, every size below that of a piece that came for slices, and 0 for what is slow."""
    if fault in ENDINGS:
        offsets = range(stream.bytes + 1)
    else:
        offsets = range(min(stream.bytes, 1)) if fault == "slow" else range(1, max(stream.pieces, default=0))
    boundaries = set(stream.boundaries)
    near = {boundary + beside for boundary in boundaries for beside in (-1, 0, 1)}
    # A range isn't gone through where each number is looked for in it.
    return Span(stream, fault, offsets, {each for each in boundaries if each in offsets}, {each for each in near if each in offsets}, within)


def _drawn(spans: Sequence[Span], most: int, taken: Set[FaultPoint], draw: random.Random) -> List[FaultPoint]:
    """At most so many points that aren't taken, in order. No list of all offsets is made: a stream may have many."""
    ends = list(itertools.accumulate(len(span.offsets) for span in spans))
    every = range(ends[-1] if ends else 0)
    found = []
    for place in draw.sample(every, min(len(every), most + len(taken))):
        index = bisect.bisect_right(ends, place)
        # Counted back from the span's end.
        point = spans[index].point(spans[index].offsets[place - ends[index]])
        if point not in taken:
            found.append((place, point))
    return [point for _, point in sorted(found[:most], key=lambda each: each[0])]
