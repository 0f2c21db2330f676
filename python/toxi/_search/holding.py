"""How long the links of a run have held bytes and ends back, by their logs."""
import bisect
import re
from pathlib import Path
from typing import Iterable, List, Optional, Tuple

from ..commands import ERRORS
from ..conversations import END, PIECE

WROTE = re.compile(r"(\d+) wrote (\d+)\.\.(\d+) \d+\n")
# The last line of a log: its stream is closed or reset, stays open without another byte, or was broken.
LAST = re.compile(r"(?:(\d+) (?:closed|reset|open)|broken )\b.*\n")
# What a log doesn't have yet came at most so long ago, in seconds.
LOG_LAG = 0.6
# A span of a link's clock, in microseconds.
Span = Tuple[int, int]


def held_seconds(logs: Iterable[Path], now: float) -> float:
    """The time in which streams held something that came later, or still may, in seconds. `now` is the run's time: what is held now is held until then.

    What is dropped isn't held. Streams are added up, so links that hold something at once count twice.
    """
    return sum(end - begin for log in logs for begin, end in joined(_held(log, int(now * 1e6)))) / 1e6


def joined(spans: Iterable[Span]) -> List[Span]:
    """The same time in spans that don't overlap."""
    found: List[Span] = []
    for begin, end in sorted(spans):
        if found and begin <= found[-1][1]:
            found[-1] = found[-1][0], max(end, found[-1][1])
        else:
            found.append((begin, end))
    return found


def _held(log: Path, now: int) -> List[Span]:
    """From when each piece came until its last byte was written, and from the source's end to that of the stream."""
    came: List[Tuple[int, int]] = []
    carried, written = 0, 0
    spans: List[Span] = []
    source_end: Optional[int] = None
    for line in _lines(log):
        piece, wrote, end = PIECE.fullmatch(line), WROTE.fullmatch(line), END.fullmatch(line)
        last = None if piece or wrote or end else LAST.fullmatch(line)
        if piece:
            carried += int(piece[2])
            came.append((carried, int(piece[1])))
        elif wrote:
            written = int(wrote[3])
            spans.append((_instant(came, int(wrote[2])), int(wrote[1])))
        elif end:
            source_end = int(end[1])
        elif last:
            return spans + ([] if source_end is None or last[1] is None else [(source_end, int(last[1]))])
    spans += [(instant, max(now, instant)) for reach, instant in came if reach > written]
    return spans + ([] if source_end is None else [(source_end, max(now, source_end))])


def _instant(came: List[Tuple[int, int]], offset: int) -> int:
    """When the byte at an offset came."""
    place = bisect.bisect_left(came, (offset + 1, 0))
    return came[place][1] if place < len(came) else 0


def _lines(log: Path) -> List[str]:
    """The whole lines so far. A log that has just gone has none."""
    try:
        with log.open(encoding="utf-8", errors=ERRORS) as lines:
            return [line for line in lines if line.endswith("\n")]
    except FileNotFoundError:
        return []
