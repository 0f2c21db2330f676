"""The faults of a search that aren't drawn: at boundaries, late answers, and outages."""
from dataclasses import replace
from typing import Callable, Iterable, Iterator, List, Sequence, Tuple

from ..conversations import StreamBytes
from ..fault_points import ALL, MILLIS, FaultPoint, delay_of
from ..rules import Rule
from ..toxics import Latency, LimitData, ResetPeer, Slicer, Timeout, Toxic
from .cases import Case
from .conversation import Conversation, TimeLimit
from .words import ENDINGS

# Of a stream so many boundaries are tried: half of them the first, half the last.
MAX_BOUNDARIES = 16
# What late answers are late by, in parts of a time limit.
LATE_PARTS = (0.5, 0.9, 1.1, 2.0)
# The second half of a piece comes so late.
HALF_PARTS = (0.5, 1.1)
# At most so many different time limits are used.
MAX_LIMITS = 6
# Time limits that differ by less than this share of one are the same limit, and the time that the machine took.
SAME_SHARE = 0.2
# An outage that heals ends before this connection.
HEALED = 4
# Outages come behind so many boundaries of the first connection.
OUTAGE_BOUNDARIES = 3


def boundary_cases(conversation: Conversation, within: float) -> List[Case]:
    """Each ending at 0, at each boundary and at the end of each stream, cuts near its start and its end, and slices. Then each ending in the middle of pieces, and
    beside boundaries. So a client that is slow meets each kind of fault soon. Silence, whose runs take longest, comes last of each."""
    streams = _by_number(conversation.streams)
    found = _endings(streams, ("closed",), _chosen)
    found += _endings(streams, ("closed",), _near_ends)
    found += _endings(streams, ("reset",), _chosen)
    found += _sliced(streams, within)
    found += _endings(streams, ("silent",), _chosen)
    found += _endings(streams, ENDINGS, _halves)
    return found + _endings(streams, ENDINGS, _beside)


def _endings(streams: Sequence[StreamBytes], faults: Sequence[str], places: Callable[[StreamBytes], List[int]]) -> List[Case]:
    return [Case.of(FaultPoint(*stream.key, fault, offset)) for fault in faults for stream in streams for offset in places(stream)]


def _by_number(streams: Sequence[StreamBytes]) -> List[StreamBytes]:
    """Answers before requests, and first connections before later ones."""
    return sorted(streams, key=lambda stream: (stream.number, stream.stream == "upstream"))


def _chosen(stream: StreamBytes) -> List[int]:
    every = stream.boundaries
    return every if len(every) <= MAX_BOUNDARIES else every[: MAX_BOUNDARIES // 2] + every[-MAX_BOUNDARIES // 2 :]


def _halves(stream: StreamBytes) -> List[int]:
    """The middle of the stream, and that of each piece."""
    at = _chosen(stream)
    return list(dict.fromkeys([stream.bytes // 2, *((one + other) // 2 for one, other in zip(at, at[1:]))]))


def _near_ends(stream: StreamBytes) -> List[int]:
    """By halves ever nearer to the start of the first piece and to the end of the last one: heads end and last fields begin at an unknown scale."""
    at = stream.boundaries
    first, last = (at[1], at[-1] - at[-2]) if len(at) > 1 else (0, 0)
    tails = [at[-1] - (last >> by) for by in range(1, last.bit_length())]
    return list(dict.fromkeys([*(first >> by for by in range(1, first.bit_length())), *tails]))


def _beside(stream: StreamBytes) -> List[int]:
    """One byte beside each boundary."""
    beside = [boundary + step for boundary in _chosen(stream) for step in (1, -1)]
    return [offset for offset in dict.fromkeys(beside) if 0 <= offset <= stream.bytes]


def _sliced(streams: Sequence[StreamBytes], within: float) -> Iterator[Case]:
    for stream in streams:
        largest = max(stream.pieces, default=0)
        for size in sorted({1, largest // 2, largest - 1}):
            if 0 < size < largest:
                yield Case.of(FaultPoint(*stream.key, "sliced", size, delay_of("sliced", size, stream, within)))


def late_cases(conversation: Conversation) -> List[Case]:
    """Answers that come late, by parts of each time limit: one piece alone, the second half of pieces, all of a stream, and all requests."""
    found: List[Case] = []
    limits = _distinct(conversation.limits)
    for limit in limits:
        stream = conversation.by_key[limit.proxy, limit.number, "downstream"]
        for part in LATE_PARTS:
            found.append(Case.of(late_point(stream, limit.offset, max(1, round(part * limit.milliseconds)))))
    for limit in {(limit.proxy, limit.number, limit.milliseconds): limit for limit in limits}.values():
        stream = conversation.by_key[limit.proxy, limit.number, "downstream"]
        for direction in ("downstream", "upstream"):
            delays = [max(1, round(part * limit.milliseconds)) * MILLIS for part in LATE_PARTS]
            found += [Case.of(FaultPoint(limit.proxy, limit.number, direction, "slow", 0, delay)) for delay in delays]
        half = max(stream.pieces, default=0) // 2
        slicers = [Slicer(average_size=half, delay=round(part * limit.milliseconds * MILLIS)) for part in HALF_PARTS if half]
        found += [_one_rule(limit.proxy, slicer, limit.number, limit.number) for slicer in slicers]
    return found


def _distinct(limits: Iterable[TimeLimit]) -> List[TimeLimit]:
    """The limits of at most `MAX_LIMITS` different times. Times that are nearly the same are the first of them."""
    kept: List[TimeLimit] = []
    times: List[int] = []
    for limit in limits:
        same = next((time for time in times if abs(time - limit.milliseconds) <= SAME_SHARE * time), None)
        if same is None and len(times) < MAX_LIMITS:
            times.append(limit.milliseconds)
            same = limit.milliseconds
        kept += [] if same is None else [replace(limit, milliseconds=same)]
    return kept


def late_point(stream: StreamBytes, offset: int, milliseconds: int) -> FaultPoint:
    """The piece behind `offset` bytes comes late. Its window begins between the piece before and itself, and ends while it is late."""
    place = stream.piece_behind(offset) or 0
    instants = [instant / 1000 for instant in stream.instants] or [0.0]
    place = min(place, len(instants) - 1)
    begin = 0 if place == 0 else round((instants[place - 1] + instants[place]) / 2)
    end = round(instants[place] + milliseconds / 2) + 1
    return FaultPoint(*stream.key, "late", offset, milliseconds * MILLIS, (begin, max(end, begin + 1)))


def outage_cases(conversation: Conversation) -> List[Case]:
    """A fault on all connections of a proxy, on 1 and 2, on 2 alone, refused connects, and outages that heal."""
    found: List[Case] = []
    for proxy in conversation.proxies:
        found += [_one_rule(proxy, toxic, first, last) for toxic in _outages(conversation, proxy) for first, last in _spans(conversation, proxy)]
        found.append(Case(refused=frozenset({proxy})))
        found += [_one_rule(proxy, LimitData(), 1, HEALED - 1)]
        found += [_one_rule(proxy, Latency(latency=2 * time, until=time), 1, ALL) for time in conversation.times()[:1]]
        found += [_one_rule(proxy, toxic, first, last) for toxic in _slow(conversation) for first, last in ((1, ALL), (2, 2))]
        found += [_one_rule(proxy, Timeout(), first, last) for first, last in _spans(conversation, proxy)]
    return found


def _spans(conversation: Conversation, proxy: str) -> List[Tuple[int, int]]:
    """First and last connections: 1 and 2, all, and the first that the client doesn't make by itself."""
    return [(1, 2), (1, ALL), *([(2, 2)] if conversation.connections(proxy) == 1 else [])]


def _outages(conversation: Conversation, proxy: str) -> List[Toxic]:
    stream = conversation.by_key.get((proxy, 1, "downstream"))
    offsets = [] if stream is None else [offset for offset in stream.boundaries if 0 < offset < stream.bytes]
    behind = [LimitData(bytes=offset) for offset in offsets[:OUTAGE_BOUNDARIES]]
    return [LimitData(), ResetPeer(), LimitData(stream="upstream"), *behind]


def _slow(conversation: Conversation) -> List[Toxic]:
    return [Latency(latency=round(part * time)) for time in conversation.times()[:1] for part in LATE_PARTS]


def _one_rule(proxy: str, toxic: Toxic, first: int, last: int) -> Case:
    return Case((Rule(proxy, [toxic], first=first, last=last or None),))
