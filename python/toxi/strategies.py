"""Hypothesis strategies for toxics, rules and seeds.

    @given(rules=strategies.rules(["shop"], within=5.0), seed=strategies.seeds())
    def test_any_fault(toxi_session, rules, seed): ...

They need Hypothesis: `pip install hypothesis`. What they draw is accepted by `toxi serve`, and shrinks toward no rule, connection 1, few toxics,
small numbers and downstream.
"""
from dataclasses import replace
from functools import partial
from typing import Any, Callable, Dict, Iterable, List, Optional, Tuple, TypeVar

try:
    import hypothesis
    from hypothesis import strategies as st
    from hypothesis.strategies import DrawFn, SearchStrategy
except ModuleNotFoundError as missing:
    if missing.name != "hypothesis":
        raise
    raise ModuleNotFoundError("Hypothesis isn't installed: pip install hypothesis, or Debian's python3-hypothesis", name="hypothesis") from None

from .base import STREAMS
from .delays import Delays
from .outcomes import WITHIN
from .rules import Rule
from .smallness import KINDS
from .toxics import MAX_MS, Bandwidth, Latency, LimitData, ResetPeer, Slicer, SlowClose, Timeout, Toxic

# The conversation whose delays are kept below half of the limit, in bytes.
CONVERSATION = 1024
# Positions in a stream up to this are drawn more often: heads and first pieces end there.
NEAR = 16
# Times up to this are drawn more often, in milliseconds.
SOON = 20
MAX_RATE = 1_000_000
# The most toxics of a stream.
LANES = 32
Value = TypeVar("Value")
# What a suite uses of this module. The rest draws for searches.
__all__ = ["rules", "seeds", "toxics"]


def toxics(
    *,
    stream: Optional[str] = None,
    kinds: Optional[Iterable[str]] = None,
    within: float = WITHIN,
    bytes: int = CONVERSATION,
    trickle: bool = False,
) -> "SearchStrategy[Toxic]":
    """Toxics of `stream`, or of both, and of `kinds`, types such as `"latency"`, or of all kinds.

    `within` is the client's limit in seconds. A single delay is below a tenth of it or above it, and those that add up over a conversation of 1 KB, or
    of `bytes` where that is more, stay below half of it. With `trickle` a bandwidth or a slicer may take longer than that. `bytes` is also how far into
    a stream a toxic cuts it or begins. Raises `ValueError` for an unknown stream or kind, and for no kind.
    """
    return _toxics(stream, kinds, bytes, Delays(within, max(bytes, CONVERSATION), trickle))


def rules(
    proxies: Iterable[str],
    *,
    connections: int = 3,
    most_rules: Optional[int] = None,
    most_toxics: int = 2,
    stream: Optional[str] = None,
    kinds: Optional[Iterable[str]] = None,
    within: float = WITHIN,
    bytes: int = CONVERSATION,
    trickle: bool = False,
) -> "SearchStrategy[List[Rule]]":
    """Rules for proxies of these names, or for those of a mapping: at most `most_rules`, two more than proxies by default, of at most
    `most_toxics` toxics each.

    A rule begins with one of the first `connections` of its proxy, and ends with one of them or has no end. The rest is as for `toxics`, where the
    delays of all those connections together stay below half of `within`.
    """
    names = list(proxies)
    if not names or connections < 1 or not 1 <= most_toxics <= LANES:
        raise ValueError(f"rules need a proxy, a connection, and 1 to {LANES} toxics")
    delays = Delays(within, max(bytes, CONVERSATION), trickle, 0.5 / (connections * len(names)))
    each = _lists(_toxics(stream, kinds, bytes, delays), most_toxics).map(delays.fitting).map(_named)
    one = st.builds(_rule, st.sampled_from(names), _firsts(connections), st.integers(0, connections), st.just(connections), each)
    most = len(names) + 2 if most_rules is None else most_rules
    return _lists(st.one_of(one, one, one, one), most).map(_with_toxics)


def seeds() -> "SearchStrategy[int]":
    """Seeds of `serve`."""
    return st.integers(0, 2**64 - 1)


def blocks(size: int) -> "SearchStrategy[bytes]":
    """So many bytes, which cost one draw."""
    return st.binary(min_size=size, max_size=size)


def run_quietly(strategy: "SearchStrategy[Value]", see: Callable[[Value], object], count: int, number: int) -> None:
    """Calls `see` with so many values, at least one, under a seed. Nothing is kept for a later run, and nothing is shrunk."""

    @hypothesis.seed(number)
    @hypothesis.settings(
        max_examples=max(count, 1),
        phases=(hypothesis.Phase.generate,),
        database=None,
        deadline=None,
        verbosity=hypothesis.Verbosity.quiet,
        suppress_health_check=list(hypothesis.HealthCheck),
    )
    @hypothesis.given(strategy)
    def run(value: Value) -> None:
        see(value)

    run()


# Hypothesis reads the source of what is given to `map` and `flatmap` at each draw unless it has a name.
def _with_toxics(drawn: List[Rule]) -> List[Rule]:
    return [rule for rule in drawn if rule.toxics]


def _some(drawn: List[Optional[Value]]) -> List[Value]:
    return [each for each in drawn if each is not None]


def _thousandths(number: int) -> float:
    return number / 1000


def _lists(element: "SearchStrategy[Value]", most: int) -> "SearchStrategy[List[Value]]":
    """Lists whose elements may be nothing: shrunk to that, one is dropped. Hypothesis deletes no long one from the front of a list by itself."""
    return st.lists(st.one_of(st.none(), element), min_size=1, max_size=most).map(_some)


def _firsts(connections: int) -> "SearchStrategy[int]":
    """First connections, two times in three connection 1: that is the one which each client makes."""
    return st.integers(1, 3 * connections).map(partial(_first_of, connections))


def _first_of(connections: int, number: int) -> int:
    return max(1, number - 2 * connections)


def _rule(proxy: str, first: int, more: int, connections: int, chosen: List[Toxic]) -> Rule:
    """A rule of 1 + `more` connections. No end is a number too, the greatest: a draw without one would be shorter, and shrunk to."""
    return Rule(proxy, chosen, first=first, last=None if more == connections else min(first + more, connections))


def _named(chosen: Iterable[Toxic]) -> List[Toxic]:
    """Toxics with names where two of a type and a stream would have the same one."""
    seen: Dict[Tuple[str, str], int] = {}
    named = []
    for toxic in chosen:
        place = (toxic.type, toxic.stream)
        seen[place] = seen.get(place, 0) + 1
        named.append(toxic if seen[place] == 1 else replace(toxic, name=f"{toxic.type}_{toxic.stream}_{seen[place]}"))
    return named


def _usually(common: "SearchStrategy[Any]", seldom: "SearchStrategy[Any]") -> "SearchStrategy[Any]":
    """The common values, and one time in five the seldom ones."""
    return st.integers(0, 4).flatmap(partial(_common_or_seldom, common, seldom))


def _common_or_seldom(common: "SearchStrategy[Any]", seldom: "SearchStrategy[Any]", number: int) -> "SearchStrategy[Any]":
    return seldom if number == 4 else common


def require_known(stream: Optional[str], kinds: Optional[Iterable[str]]) -> List[str]:
    """The kinds, or all of them. Raises `ValueError` for an unknown stream or kind, and for no kind."""
    if stream not in (None, *STREAMS):
        raise ValueError(f"{stream!r} is no stream; there are {', '.join(STREAMS)}")
    chosen = list(DRAWS if kinds is None else kinds)
    if not chosen:
        raise ValueError(f"no kind is named; there are {', '.join(DRAWS)}")
    for kind in chosen:
        if kind not in DRAWS:
            raise ValueError(f"{kind!r} is no kind; there are {', '.join(DRAWS)}")
    return chosen


def _toxics(stream: Optional[str], kinds: Optional[Iterable[str]], bytes: int, delays: Delays) -> "SearchStrategy[Toxic]":
    chosen = require_known(stream, kinds)
    # Answers more often than requests, and first, since the first is shrunk to.
    streams = st.sampled_from(("downstream", "downstream", "upstream")) if stream is None else st.just(stream)
    toxicities = _usually(st.none(), st.integers(1, 999).map(_thousandths))
    draws = _Draws(bytes, delays, streams, toxicities)
    # The first is shrunk to. Those that end a stream are drawn three times as often: they break more clients than delays do.
    drawn = [kind for kind in [*DRAWS, *ENDING, *ENDING] if kind in chosen]
    return st.one_of(*[draws.drawn(DRAWS[kind]) for kind in drawn])


class _Draws:
    """What the toxics draw from."""

    def __init__(self, bytes: int, delays: Delays, streams: "SearchStrategy[str]", toxicities: "SearchStrategy[Optional[float]]") -> None:
        self.delays = delays
        self.short_waits = self.times(delays.longest_wait(), False)
        self.waits = self.times(delays.longest_wait())
        self.turns = self.times(delays.longest_turn())
        self.positions = st.one_of(st.integers(0, min(NEAR, bytes)), st.integers(0, bytes))
        self._common = st.fixed_dictionaries({"stream": streams, "toxicity": toxicities})

    def times(self, longest: int, with_long: bool = True) -> "SearchStrategy[int]":
        """Milliseconds of at most `longest`, or above the limit one time in five."""
        short = st.one_of(st.integers(0, min(longest, SOON)), st.integers(0, longest))
        if not with_long or self.delays.shortest_long > MAX_MS:
            return short
        return _usually(short, st.integers(self.delays.shortest_long, min(MAX_MS, 2 * self.delays.shortest_long)))

    def drawn(self, drawing: "Drawing") -> "SearchStrategy[Toxic]":
        """A toxic whose own attributes are drawn before what all toxics have."""

        @st.composite
        def toxic(draw: DrawFn) -> Toxic:
            made = drawing(draw, self)
            return replace(made, **draw(self._common))

        return toxic()

    def window(self, draw: DrawFn) -> Tuple[int, int]:
        """From when and until when a toxic works, in milliseconds. Usually always."""
        begin = draw(_usually(st.just(0), self.waits))
        end = draw(_usually(st.just(0), self.waits))
        return begin, min(MAX_MS, begin + end) if end else 0


Drawing = Callable[[DrawFn, _Draws], Toxic]


# Those that end a stream draw its position first, so that one is shrunk to another with the same position.
def _limit_data(draw: DrawFn, draws: _Draws) -> Toxic:
    return LimitData(bytes=draw(draws.positions))


def _reset_peer(draw: DrawFn, draws: _Draws) -> Toxic:
    # One past the limit would be silence until then, which is a timeout's.
    return ResetPeer(after=draw(draws.positions), timeout=draw(draws.short_waits))


def _timeout(draw: DrawFn, draws: _Draws) -> Toxic:
    return Timeout(after=draw(draws.positions), from_=draw(_usually(st.just(0), draws.waits)), timeout=draw(draws.waits))


def _latency(draw: DrawFn, draws: _Draws) -> Toxic:
    latency = draw(draws.turns)
    longest = draws.delays.longest_turn()
    room = longest - latency if latency <= longest else latency - draws.delays.shortest_long
    jitter = draw(_usually(st.just(0), st.integers(0, room)))
    begin, end = draws.window(draw)
    return Latency(latency=latency, jitter=jitter, from_=begin, until=end)


def _slow_close(draw: DrawFn, draws: _Draws) -> Toxic:
    return SlowClose(delay=draw(draws.waits))


def _bandwidth(draw: DrawFn, draws: _Draws) -> Toxic:
    lowest = min(MAX_RATE, draws.delays.lowest_rate())
    rate = draw(st.one_of(st.integers(lowest, min(MAX_RATE, 20 * lowest)), st.integers(lowest, MAX_RATE)))
    begin, end = draws.window(draw)
    return Bandwidth(rate=rate, from_=begin, until=end)


def _slicer(draw: DrawFn, draws: _Draws) -> Toxic:
    average = draw(st.one_of(st.integers(1, NEAR), st.integers(1, CONVERSATION)))
    variation = draw(_usually(st.just(0), st.integers(0, average - 1)))
    longest = draws.delays.longest_pause(average - variation)
    delay = draw(st.one_of(st.integers(0, min(longest, 1000)), st.integers(0, longest)))
    begin, end = draws.window(draw)
    return Slicer(average_size=average, size_variation=variation, delay=delay, from_=begin, until=end)


# The first is shrunk to.
DRAWS: Dict[str, Drawing] = dict(zip(KINDS, (_limit_data, _reset_peer, _timeout, _latency, _slow_close, _bandwidth, _slicer)))
ENDING = ("limit_data", "reset_peer", "timeout")
