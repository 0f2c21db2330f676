"""The lines that `serve` prints, as values."""
import re
from dataclasses import dataclass
from typing import NamedTuple, Optional, Tuple, Union

LISTENING = re.compile(r"listening (.*) (\S+):(\d+)")
LINK = re.compile(r"link (.*) (\d+) up (\d+) (\w+) down (\d+) (\w+)")
TOTAL = re.compile(r"total (.*) (\d+) up (\d+) down (\d+)")


class Address(NamedTuple):
    """Where a proxy listens: a pair for `socket.create_connection`, and `host:port` as a text."""

    host: str
    port: int

    def __str__(self) -> str:
        return f"[{self.host}]:{self.port}" if ":" in self.host else f"{self.host}:{self.port}"


@dataclass(frozen=True)
class Link:
    """How a link ended: the bytes written upstream and downstream, and the word of each end.

    An end is `closed`, `reset`, `open` or `broken`.
    """

    proxy: str
    number: int
    up: int
    up_end: str
    down: int
    down_end: str

    def __str__(self) -> str:
        return f"link {self.proxy} {self.number} up {self.up} {self.up_end} down {self.down} {self.down_end}"


@dataclass(frozen=True)
class Total:
    """The links of a proxy that has ended, and the sums of their bytes."""

    proxy: str
    links: int
    up: int
    down: int

    def __str__(self) -> str:
        return f"total {self.proxy} {self.links} up {self.up} down {self.down}"


def printed(name: str) -> str:
    """A name as the program prints it: a control character, and one that orders text by its direction, by its code."""
    name = re.sub("[\x00-\x1f\x7f-\x9f]", lambda found: f"\\x{ord(found[0]):02x}", name)
    return re.sub("[\u202a-\u202e\u2066-\u2069]", lambda found: f"\\u{ord(found[0]):04x}", name)


def parse(line: str) -> Optional[Union[Tuple[str, Address], Link, Total]]:
    """A line as a pair of a proxy and its address, a link or a total. None for another line."""
    found = LISTENING.fullmatch(line)
    if found:
        return found[1], Address(found[2].strip("[]"), int(found[3]))
    found = LINK.fullmatch(line)
    if found:
        return Link(found[1], int(found[2]), int(found[3]), found[4], int(found[5]), found[6])
    found = TOTAL.fullmatch(line)
    if found:
        return Total(found[1], *map(int, found.groups()[1:]))
    return None
