"""Scripts that are drawn: Hypothesis draws, and what it draws is read over the recorded conversation."""
import itertools
import struct
from dataclasses import dataclass
from typing import Dict, Iterator, List, Optional, Sequence, Set, Tuple, cast

from ..conversations import StreamBytes
from ..delays import Delays
from ..rules import Rule
from ..toxics import MAX_MS, Bandwidth, Latency, LimitData, ResetPeer, Slicer, SlowClose, Stream, Timeout, Toxic
from .cases import Case, word_of
from .conversation import Conversation
from .running import Called
from .words import REFUSED, SEARCHED, TYPES_OF_WORD

# A number that is drawn is below this: a share of a range, in parts of it.
PARTS = 10_000
# Scripts are drawn as one block of bytes, which costs one draw, so many blocks at once. The first block of Hypothesis has zeros alone.
AT_ONCE = 200
BLOCKS = 3
# The space is used up where so many draws in a row gave no new script.
MAX_STALE = 500
MAX_TOXICS = 3
# What slices and a rate delay a stream by adds up to at most this part of the limit.
DELAYED_SHARE = 0.1
# Past the limit by so much a delay is drawn at most.
PAST_LIMIT = 1.2
# How often each kind is drawn. Those that end a stream break more clients than delays do, and take less time. Silence and latency have phases of their own.
KINDS: Tuple[str, ...] = ("limit_data",) * 12 + ("reset_peer",) * 6 + ("latency", "slicer", "timeout", "slow_close", "bandwidth")
# A drawn toxic: where, which kind, how its position is chosen, its position and its delay as parts, and whether it is for later connections too.
Drawn = Tuple[int, ...]
NUMBERS = 6
# A script as 16-bit numbers: how many toxics, and those of each.
SCRIPT = struct.Struct(f"<{1 + NUMBERS * MAX_TOXICS}H")


@dataclass(frozen=True)
class DrawnFaults:
    """Which faults are tried: for the first `connections` of each proxy, on one stream alone, of some types of toxics, or of some `words` such as `closed`.
    With `trickle` streams may be slower than the client's limit allows."""

    connections: Optional[int] = None
    stream: Optional[str] = None
    kinds: Optional[Tuple[str, ...]] = None
    trickle: bool = False
    words: Optional[Tuple[str, ...]] = None

    def require_known(self) -> None:
        """Raises `ValueError` for a stream, a type or a word that isn't one, and `ModuleNotFoundError` without Hypothesis."""
        from .. import strategies

        strategies.require_known(self.stream, self.kinds)
        unknown = [word for word in self.words or () if word not in SEARCHED]
        if unknown or self.words == ():
            raise ValueError(f"no fault {unknown[0]!r}; there are {', '.join(SEARCHED)}" if unknown else f"no fault is named; there are {', '.join(SEARCHED)}")

    def takes(self, toxic: Toxic, number: int) -> bool:
        """Whether a toxic on a connection is among them."""
        return (
            (self.stream is None or toxic.stream == self.stream)
            and (self.kinds is None or toxic.type in self.kinds)
            and (self.words is None or word_of(toxic) in self.words)
            and (self.connections is None or number <= self.connections)
        )

    @property
    def takes_refused(self) -> bool:
        """Whether refused connects are among them."""
        return self.stream is None and self.kinds is None and (self.words is None or REFUSED in self.words)

    @property
    def drawn_kinds(self) -> List[str]:
        """The types of toxics that are drawn, as often as they are."""
        types = None if self.words is None else {kind for word in self.words for kind in TYPES_OF_WORD[word]}
        return [kind for kind in KINDS if (self.kinds is None or kind in self.kinds) and (types is None or kind in types)]


class Drawing:
    """Reads scripts out of drawn numbers, over a conversation."""

    def __init__(self, conversation: Conversation, called: Called, faults: DrawnFaults, within: float) -> None:
        self._called = {key: case for key, (case, _) in called.items()}
        self._places = list(_places(conversation, called, faults))
        self._kinds = faults.drawn_kinds
        self._times = conversation.times()
        self._within = within
        largest = max((stream.bytes for stream in conversation.streams), default=0)
        self._delays = Delays(within, max(largest, 1), faults.trickle, DELAYED_SHARE)

    @property
    def draws(self) -> bool:
        """Whether there is something to draw."""
        return bool(self._places and self._kinds)

    def case(self, drawn: Sequence[Drawn]) -> Case:
        """A script: toxics of one place and reach are one rule."""
        chosen: Dict[Tuple[str, int, int], List[Toxic]] = {}
        for place, kind, how, position, delay, reach in drawn:
            stream = self._places[place % len(self._places)]
            last = 0 if reach % 8 == 0 else stream.number + 1 if reach % 8 == 1 else stream.number
            toxic = self._toxic(self._kinds[kind % len(self._kinds)], stream, (how, position), delay)
            same = chosen.setdefault((stream.proxy, stream.number, last), [])
            if all((each.type, each.stream) != (toxic.type, toxic.stream) for each in same):
                same.append(toxic)
        for proxy, first, _ in list(chosen):
            for rule in self._called[proxy, first].rules if (proxy, first) in self._called else ():
                chosen.setdefault((rule.proxy, rule.first, rule.last or 0), list(rule.toxics))
        # A connection meets the first rule that covers it, so those of one connection come first.
        ordered = sorted(chosen.items(), key=_breadth)
        return Case(tuple(Rule(proxy, toxics, first=first, last=last or None) for (proxy, first, last), toxics in ordered))

    def _toxic(self, kind: str, stream: StreamBytes, place: Tuple[int, int], delay: int) -> Toxic:
        offset, time, name = _offset(stream, *place), self._time(delay), cast(Stream, stream.stream)
        if kind == "limit_data":
            return LimitData(stream=name, bytes=offset)
        if kind == "reset_peer":
            return ResetPeer(stream=name, after=offset)
        if kind == "timeout":
            return Timeout(stream=name, after=offset)
        if kind == "latency":
            begin, end = _window(stream, place[1], time)
            return Latency(stream=name, latency=time, from_=begin, until=end)
        if kind == "slow_close":
            return SlowClose(stream=name, delay=time)
        if kind == "bandwidth":
            lowest = self._delays.lowest_rate()
            return Bandwidth(stream=name, rate=min(1_000_000, lowest * (1 + place[1] % 20)))
        size = max(1, min(offset, max(stream.pieces, default=1)))
        return Slicer(stream=name, average_size=size, delay=min(self._delays.longest_pause(size), time * 1000))

    def _time(self, part: int) -> int:
        """A delay in milliseconds: near a time limit of the client, or in the whole band up to its limit and past it."""
        share = (part // 2) / (PARTS / 2)
        if part % 2 and self._times:
            return max(1, min(MAX_MS, round(self._times[part // 2 % len(self._times)] * (0.2 + 2 * share))))
        return max(1, min(MAX_MS, round(self._within * 1000 * PAST_LIMIT * share**3)))


def _breadth(entry: Tuple[Tuple[str, int, int], List[Toxic]]) -> Tuple[float, int]:
    (_, first, last), _toxics = entry
    return (last or float("inf")) - first, first


def _places(conversation: Conversation, called: Called, faults: DrawnFaults) -> Iterator[StreamBytes]:
    """The streams that faults are drawn for, as often as they are: answers, and first connections, more often. Connections that only a fault calls forth
    are among them."""
    streams = list(conversation.streams)
    for _, link in called.values():
        streams.append(StreamBytes(link.proxy, link.number, "downstream", link.down, link.down_end))
        streams.append(StreamBytes(link.proxy, link.number, "upstream", link.up, link.up_end))
    for stream in streams:
        if faults.stream in (None, stream.stream) and (faults.connections is None or stream.number <= faults.connections):
            yield from [stream] * ((2 if stream.stream == "downstream" else 1) * (2 if stream.number == 1 else 1))


def _offset(stream: StreamBytes, how: int, part: int) -> int:
    """Behind how many bytes: anywhere, at a boundary, or near one."""
    if how % 4 < 2:
        return min(stream.bytes, part * (stream.bytes + 1) // PARTS)
    at = stream.boundaries[part % len(stream.boundaries)]
    return at if how % 4 == 2 else max(0, min(stream.bytes, at + part // 7 % 9 - 4))


def _window(stream: StreamBytes, part: int, time: int) -> Tuple[int, int]:
    """From when and until when, in milliseconds. Half of the latencies delay a stream from a piece on, or up to one."""
    if part % 4 > 1 or not stream.instants:
        return 0, 0
    at = round(stream.instants[part // 4 % len(stream.instants)] / 1000)
    return (at, 0) if part % 4 else (0, at + time // 2 + 1)


def drawn_scripts(seed: int) -> Iterator[List[Drawn]]:
    """Lists of drawn toxics, without end. The same seed draws the same ones. Raises `ModuleNotFoundError` without Hypothesis."""
    from ..strategies import blocks, run_quietly

    for round_seed in itertools.count(seed):
        drawn: List[bytes] = []
        run_quietly(blocks(AT_ONCE * SCRIPT.size), drawn.append, BLOCKS, round_seed)
        for block in drawn:
            yield from map(_script_of, dict.fromkeys(SCRIPT.iter_unpack(block)))


def _script_of(numbers: Sequence[int]) -> List[Drawn]:
    """One toxic in half of the scripts, and up to three."""
    count = 1 + max(0, numbers[0] % (2 * MAX_TOXICS) - MAX_TOXICS)
    parts = [number * PARTS >> 16 for number in numbers[1:]]
    return [tuple(parts[place : place + NUMBERS]) for place in range(0, count * NUMBERS, NUMBERS)]


def drawn_cases(drawing: Drawing, seed: int, known: Set[str]) -> Iterator[Case]:
    """Scripts by their cases, none empty, and none whose key is known or that came before. It ends where new ones no longer come."""
    stale = 0
    for script in drawn_scripts(seed) if drawing.draws else ():
        case = drawing.case(script)
        if case.rules and case.key not in known:
            known.add(case.key)
            stale = 0
            yield case
        else:
            stale += 1
        if stale > MAX_STALE:
            return
