"""The points between two neighbours of a sweep whose outcomes differ."""
from typing import Dict, Iterable, List, Mapping, Sequence

from ..conversations import StreamBytes, StreamKey
from ..fault_points import MILLIS, FaultPoint
from ..sweep_rows import SweptRun
from .phases import late_point

# Two delays that differ by at most this share of the shorter have no edge between them that a client keeps to.
CLOSE = 0.25


def between(swept: Iterable[SweptRun], faults: Sequence[str]) -> List[FaultPoint]:
    """For each two neighbours of a stream and a fault that differ in outcome, the point in the middle between them."""
    ordered = in_order(swept, faults)
    found = []
    for one, other in zip(ordered, ordered[1:]):
        same = one.point.key == other.point.key and one.point.fault == other.point.fault
        if same and one.outcome != other.outcome and other.point.offset - one.point.offset > 1:
            middle = (one.point.offset + other.point.offset) // 2
            found.append(FaultPoint(*one.point.key, one.point.fault, middle))
    return found


def late_between(swept: Iterable[SweptRun], streams: Mapping[StreamKey, StreamBytes]) -> List[FaultPoint]:
    """For each two neighbours of a stream whose late pieces differ in outcome, the point in the middle: of two delays of a piece the mean, and of two pieces with
    nearly the same delay the one between them."""
    ordered = in_order(swept, ("late",))
    known = {each.point for each in ordered}
    found: List[FaultPoint] = []
    for key in dict.fromkeys(each.point.key for each in ordered):
        pieces: Dict[int, List[SweptRun]] = {}
        for each in ordered:
            if each.point.key == key:
                pieces.setdefault(each.point.offset, []).append(each)
        found += _between_delays(streams[key], pieces)
        found += _between_pieces(streams[key], pieces)
    return [point for point in dict.fromkeys(found) if point not in known]


def _between_delays(stream: StreamBytes, pieces: Mapping[int, Sequence[SweptRun]]) -> List[FaultPoint]:
    found = []
    for offset, points in pieces.items():
        for one, other in zip(points, points[1:]):
            shorter, longer = one.point.delay, other.point.delay
            if one.verdict != other.verdict and longer - shorter > CLOSE * shorter:
                found.append(late_point(stream, offset, (shorter + longer) // 2 // MILLIS))
    return found


def _between_pieces(stream: StreamBytes, pieces: Mapping[int, Sequence[SweptRun]]) -> List[FaultPoint]:
    found = []
    offsets = sorted(pieces)
    for first, last in zip(offsets, offsets[1:]):
        skipped = [offset for offset in stream.boundaries if first < offset < last]
        for one in pieces[first] if skipped else ():
            other = min(pieces[last], key=lambda each: abs(each.point.delay - one.point.delay))
            if one.verdict != other.verdict and abs(one.point.delay - other.point.delay) <= CLOSE * one.point.delay:
                found.append(late_point(stream, skipped[len(skipped) // 2], one.point.delay // MILLIS))
    return found


def in_order(swept: Iterable[SweptRun], faults: Sequence[str]) -> List[SweptRun]:
    """The points of single connections under some faults, neighbours beside each other."""
    return sorted((each for each in swept if each.point.fault in faults and each.point.number), key=_place)


def _place(swept: SweptRun) -> "tuple[str, int, str, str, int, int]":
    return (*swept.point.key, swept.point.fault, swept.point.offset, swept.point.delay)
