"""`ClientRun`: what a check may look at beside the answer."""
import json
from dataclasses import dataclass
from functools import cached_property
from typing import Callable, Dict, Iterable, List, Optional, Sequence, Tuple, Union

from ..conversations import StreamBytes
from ..rules import Rule, script_text


@dataclass(frozen=True)
class RunLink:
    """A connection of a run: the bytes of both streams and how they ended, by the words of the link's line.

    `first_up`, `last_up`, `first_down` and `last_down` are when the first and the last piece came, and `seconds` when its client ended it, in seconds
    after its start. None where that didn't come.
    """

    proxy: str
    number: int
    up: int
    up_end: str
    down: int
    down_end: str
    first_up: Optional[float]
    last_up: Optional[float]
    first_down: Optional[float]
    last_down: Optional[float]
    seconds: Optional[float]


@dataclass(frozen=True)
class ClientRun:
    """A run of a client: its `links` with bytes, ends and times from the logs, its `script`, and the `seconds` that it took."""

    rules: Union[str, Iterable[Rule]]
    seconds: float
    read: Callable[[], List[StreamBytes]]

    @cached_property
    def links(self) -> Tuple[RunLink, ...]:
        """The connections in the order of proxies and numbers. One that still lives isn't there."""
        streams = self.read()
        return tuple(_link(up, down) for up, down in zip(streams[::2], streams[1::2]))

    @property
    def script(self) -> str:
        """The script that it ran under."""
        return self.rules if isinstance(self.rules, str) else script_text(self.rules)

    def json_text(self) -> str:
        """All of it as JSON."""
        links: List[Dict[str, object]] = [vars(link) for link in self.links]
        return json.dumps({"links": links, "script": self.script, "seconds": round(self.seconds, 6)}, indent=1) + "\n"


def _link(up: StreamBytes, down: StreamBytes) -> RunLink:
    ended = None if up.ended is None else up.ended / 1e6
    return RunLink(up.proxy, up.number, up.bytes, up.end, down.bytes, down.end, *_ends(up.instants), *_ends(down.instants), ended)


def _ends(instants: Sequence[int]) -> Tuple[Optional[float], Optional[float]]:
    return (instants[0] / 1e6, instants[-1] / 1e6) if instants else (None, None)
