"""The lines of `serve --verbose` as they come: what tells of open links is kept apart from the lines that a suite is shown."""
import re
import time
from typing import Dict, List, Optional, Protocol

from .lines import Link, parse, printed

# With this option `serve` tells of a link as its upstream is reached.
VERBOSE = "--verbose"
# What its other lines begin with that it prints without the option too.
SHOWN = ("listening ", "link ", "total ")
OPEN = "open "
# What it says on standard error with the option alone.
TOXICITY = re.compile(r"toxi: rule \d+: .* has toxicity \d+ \(.* %\)")


class Sink(Protocol):
    """Where a reader puts lines."""

    def append(self, line: str, /) -> None:
        """Takes the next line."""


class PrintedLines:
    """Puts the lines that `serve` prints without `--verbose` into `shown`, and keeps when each link that lives was open."""

    def __init__(self, shown: List[str]) -> None:
        self._shown = shown
        # By its lines, in seconds.
        self._opened: Dict[str, float] = {}

    def append(self, line: str, /) -> None:
        """Takes the next line."""
        if line.startswith(OPEN):
            self._opened[line] = time.monotonic()
        elif line.startswith(SHOWN):
            self._shown.append(line)
            link = parse(line)
            if isinstance(link, Link):
                for opened in self._lines_of(link.proxy, link.number):
                    del self._opened[opened]

    def open_for(self, proxy: str, number: int) -> Optional[float]:
        """For how many seconds a link that lives has been open. None where its upstream wasn't reached."""
        came = [self._opened[line] for line in self._lines_of(printed(proxy), number)]
        return time.monotonic() - min(came) if came else None

    def _lines_of(self, proxy: str, number: int) -> List[str]:
        start = f"{OPEN}{proxy} {number} "
        return [line for line in list(self._opened) if line.startswith(start)]


class SaidLines:
    """Puts the lines that `serve` says without `--verbose` into `shown`."""

    def __init__(self, shown: List[str]) -> None:
        self._shown = shown

    def append(self, line: str, /) -> None:
        """Takes the next line."""
        if not TOXICITY.fullmatch(line):
            self._shown.append(line)
