"""What the links of a client carried while it met no fault: the bytes of each stream, and the pieces in which they came."""
import itertools
import re
from dataclasses import dataclass, replace
from pathlib import Path
from typing import Any, Dict, FrozenSet, Iterable, List, Mapping, NamedTuple, Optional, Tuple

from .commands import ERRORS
from .lines import Link
from .runs import logged_link

PIECE = re.compile(r"(\d+) piece (\d+)\n")
END = re.compile(r"(\d+) end( reset)?\n")
# A proxy, the number of its connection, and the stream.
StreamKey = Tuple[str, int, str]


class StreamTimes(NamedTuple):
    """What a log says of a stream: the sizes of the pieces that came, when each came, and when its source ended, in microseconds of the link's clock."""

    pieces: Tuple[int, ...] = ()
    instants: Tuple[int, ...] = ()
    end: Optional[int] = None


@dataclass(frozen=True)
class StreamBytes:
    """A stream of a proxy's connection of this number, from 1: how many bytes it carried, how it ended, and the sizes of the pieces that came.

    `end` is a word of the link's line. `instants` are those of the pieces, and `ended` when the source ended, in microseconds after the link's start.
    `also` are boundaries that another run had.
    """

    proxy: str
    number: int
    stream: str
    bytes: int
    end: str
    pieces: Tuple[int, ...] = ()
    instants: Tuple[int, ...] = ()
    ended: Optional[int] = None
    also: FrozenSet[int] = frozenset()

    @property
    def key(self) -> StreamKey:
        """The stream's proxy, the number of its connection, and its direction."""
        return self.proxy, self.number, self.stream

    @property
    def boundaries(self) -> List[int]:
        """The offsets at which a piece begins or ends, in order, 0 included."""
        own = itertools.accumulate(self.pieces, initial=0)
        return sorted({offset for offset in (*own, *self.also) if offset <= self.bytes})

    def piece_behind(self, offset: int) -> Optional[int]:
        """The number of the piece that begins behind so many bytes or has them in it, from 0. None where no more comes."""
        ends = itertools.accumulate(self.pieces)
        return next((place for place, end in enumerate(ends) if end > offset), None)

    def of_proxy(self, proxy: str) -> "StreamBytes":
        """The same of a proxy of another name."""
        return replace(self, proxy=proxy)

    def members(self) -> Dict[str, object]:
        """As a JSON object, with its boundaries."""
        times = {"end": self.end, "pieces": list(self.pieces), "instants": list(self.instants), "ended": self.ended, "boundaries": self.boundaries}
        return {"proxy": self.proxy, "link": self.number, "stream": self.stream, "bytes": self.bytes, **times}

    @classmethod
    def of_members(cls, members: Mapping[str, Any]) -> "StreamBytes":
        """Of a JSON object. Raises `KeyError` or `TypeError` for another one."""
        place: StreamKey = members["proxy"], int(members["link"]), members["stream"]
        pieces, instants = (tuple(map(int, members[name])) for name in ("pieces", "instants"))
        return cls(*place, int(members["bytes"]), members["end"], pieces, instants, members["ended"], frozenset(members["boundaries"]))


def streams_of(links: Iterable[Link], logs: Iterable[Path]) -> List[StreamBytes]:
    """Both streams of each link, upstream first, in the order of proxies and numbers. The pieces are those of the logs."""
    times = {key: times_of(log) for log in logs for key in [logged_stream(log)] if key is not None}
    found = []
    for link in sorted(links, key=lambda link: (link.proxy, link.number)):
        for stream, carried, end in (("upstream", link.up, link.up_end), ("downstream", link.down, link.down_end)):
            key = link.proxy, link.number, stream
            found.append(StreamBytes(*key, carried, end, *times.get(key, StreamTimes())))
    return found


def logged_stream(log: Path) -> Optional[StreamKey]:
    """The stream of a log. None where the log doesn't tell its link yet."""
    link = logged_link(log)
    return None if link is None else (*link, log.stem.rpartition("-")[2])


def times_of(log: Path) -> StreamTimes:
    """What a log's stream heard, and when."""
    pieces, instants, ended = [], [], None
    with log.open(encoding="utf-8", errors=ERRORS) as lines:
        for line in lines:
            found = PIECE.fullmatch(line)
            if found:
                instants.append(int(found[1]))
                pieces.append(int(found[2]))
                continue
            found = END.fullmatch(line)
            ended = int(found[1]) if found and ended is None else ended
    return StreamTimes(tuple(pieces), tuple(instants), ended)


def longer_streams(one: Iterable[StreamBytes], other: Iterable[StreamBytes]) -> List[StreamBytes]:
    """The streams of two runs, and of one that both have the one with more bytes, with the boundaries of both."""
    longest: Dict[StreamKey, StreamBytes] = {}
    for stream in itertools.chain(one, other):
        known = longest.get(stream.key)
        if known is None:
            longest[stream.key] = stream
        else:
            kept, dropped = (stream, known) if known.bytes < stream.bytes else (known, stream)
            also = frozenset(dropped.boundaries) if dropped.bytes == kept.bytes else frozenset()
            longest[stream.key] = replace(kept, also=kept.also | also)
    return [longest[key] for key in sorted(longest, key=lambda key: (key[0], key[1], key[2] == "downstream"))]
