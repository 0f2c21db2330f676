"""How long toxics may delay a client that has a limit, so that exceeding the limit is the client's fault."""
import math
from dataclasses import dataclass, replace
from typing import Iterable, List

from .toxics import MAX_MS, Bandwidth, Latency, ResetPeer, Slicer, SlowClose, Timeout, Toxic

# A latency is met by each message and its answer. So many of them are reckoned with on a connection, and so many pieces that a slicer gets besides
# those that it makes of whole chunks.
TURNS = 4
# A bandwidth gives pieces of at most so many milliseconds.
BANDWIDTH_PIECE = 100


@dataclass(frozen=True)
class Delays:
    """The delays within which a client must return: `within` is its limit in seconds, `size` the bytes of a conversation.

    A single delay is below a tenth of the limit, or above the whole. Those below add up to at most `share` of the limit on a connection.
    With `trickle` the pieces of a bandwidth and a slicer may add up to more.
    """

    within: float
    size: int
    trickle: bool = False
    share: float = 0.5

    @property
    def longest_short(self) -> int:
        """The longest delay in milliseconds that is below a tenth of the limit."""
        return max(0, min(MAX_MS, math.ceil(self.within * 100) - 1))

    @property
    def shortest_long(self) -> int:
        """The shortest delay in milliseconds that is above the limit. It may be longer than a toxic can be."""
        return math.floor(self.within * 1000) + 1

    @property
    def sum_limit(self) -> float:
        """What the short delays of a connection may add up to, in milliseconds."""
        return self.within * 1000 * self.share

    def longest_turn(self) -> int:
        """The longest short latency, in milliseconds."""
        return min(self.longest_short, math.floor(self.sum_limit / TURNS))

    def longest_wait(self) -> int:
        """The longest short wait that a connection has once, in milliseconds."""
        return min(self.longest_short, math.floor(self.sum_limit))

    def lowest_rate(self) -> int:
        """The lowest rate of a bandwidth, in kilobytes a second."""
        if self.trickle:
            return 1
        piece = self.longest_short if self.longest_short <= BANDWIDTH_PIECE else math.inf
        return math.ceil(self.size / max(min(self.sum_limit, piece), 0.001))

    def longest_pause(self, smallest_piece: int) -> int:
        """The longest delay of a slicer with pieces of at least so many bytes, in microseconds."""
        if self.trickle:
            return self.longest_short * 1000
        return min(self.longest_short * 1000, math.floor(self.sum_limit * 1000 / self._pieces(smallest_piece)))

    def _pieces(self, smallest_piece: int) -> int:
        return self.size // smallest_piece + TURNS

    def fitting(self, toxics: Iterable[Toxic]) -> List[Toxic]:
        """Toxics of a rule, without those that would take the sum of its short delays past the limit."""
        kept: List[Toxic] = []
        for toxic in toxics:
            if self.total([*kept, toxic]) <= self.sum_limit:
                kept.append(toxic)
        return kept

    def total(self, toxics: Iterable[Toxic]) -> float:
        """What the short delays of a connection add up to, in milliseconds. Slicers cut what other slicers give, so the smallest pieces count for all."""
        met = list(toxics)
        smallest = min((toxic.average_size - toxic.size_variation for toxic in met if isinstance(toxic, Slicer)), default=1)
        cut = [replace(toxic, average_size=smallest, size_variation=0) if isinstance(toxic, Slicer) else toxic for toxic in met]
        return sum(map(self._delay, cut))

    def _delay(self, toxic: Toxic) -> float:
        if isinstance(toxic, Bandwidth):
            return 0 if self.trickle else self.size / toxic.rate
        if isinstance(toxic, Slicer):
            return 0 if self.trickle else self._pieces(toxic.average_size) * toxic.delay / 1000
        if isinstance(toxic, Latency):
            return TURNS * self._short(toxic.latency + toxic.jitter)
        if isinstance(toxic, SlowClose):
            return self._short(toxic.delay)
        if isinstance(toxic, Timeout):
            return self._short(max(toxic.timeout, toxic.from_)) if toxic.timeout else 0
        return self._short(toxic.timeout) if isinstance(toxic, ResetPeer) else 0

    def _short(self, milliseconds: int) -> int:
        """A delay if it is short. The client has to give up during a long one, whatever else it meets."""
        return milliseconds if milliseconds <= self.longest_short else 0
