"""`Sweep`: what a client came to at each point of a sweep, as a text, as JSON and as a page."""
import json
from dataclasses import dataclass
from typing import Dict, List, Optional, Sequence, Tuple, Union

from ._search.about import About
from .conversations import StreamBytes
from .lines import printed
from .outcomes import Kind
from .sweep_page import page_text
from .sweep_points import swept_members
from .sweep_rows import SweepRow, SweptRun, rows_of

# Faults that end the conversation at once, and how many rows of hangs there may be under them.
AT_ONCE = ("closed", "reset")
MAX_HANGS = 5


@dataclass(frozen=True, repr=False)
class Sweep:
    """What a sweep has found. `str()` is its text, with a line for each row.

    `streams` are those of a run without a fault. `possible` counts the points that there are, and `chosen` those that were to be run. `seconds` is the time
    that it took. `ended` says why it ended before all of these were run, or is None. `within` is the client's limit in seconds. `about` says what it is of,
    for `toxi-merge`.
    """

    streams: Sequence[StreamBytes]
    swept: Sequence[SweptRun]
    chosen: int
    possible: int
    seconds: float
    ended: Optional[str] = None
    within: Optional[float] = None
    about: Optional[About] = None

    @property
    def rows(self) -> List[SweepRow]:
        """The rows: wrong answers and hangs first, then in the order of connections, streams, faults and offsets."""
        return rows_of(self.swept, self.streams)

    @property
    def failures(self) -> List[SweepRow]:
        """The rows for which the client is to be mended: wrong answers, hangs, and exceptions that aren't allowed."""
        return [row for row in self.rows if row.fails]

    @property
    def links(self) -> List[Tuple[str, int]]:
        """The proxy and the number of each connection that the client makes without a fault."""
        return list(dict.fromkeys((stream.proxy, stream.number) for stream in self.streams))

    @property
    def left_out(self) -> List[str]:
        """A sentence for the points that were left out, and one for those that weren't run any more."""
        bounded = [f"left out: {self.possible - self.chosen} of {self.possible} runs"] if self.chosen < self.possible else []
        early = [f"not run: {self.chosen - len(self.swept)} of {self.chosen} runs: {self.ended}"] if self.ended is not None else []
        return bounded + early

    @property
    def summary(self) -> List[str]:
        """A line for each connection, with its bytes without a fault, and one for the runs."""
        carried = {stream.key: stream.bytes for stream in self.streams}
        links = [
            f"{printed(proxy)} {number}: {carried[proxy, number, 'upstream']} bytes upstream, {carried[proxy, number, 'downstream']} downstream"
            for proxy, number in self.links
        ]
        return [*links, f"{len(self.swept)} runs in {self.seconds:.1f} s"]

    def __repr__(self) -> str:
        return f"<Sweep of {len(self.swept)} runs in {len(self.rows)} rows>"

    def __str__(self) -> str:
        slow = self._too_slow
        rows = [f"{self._connection(row)}{row}" for row in self.rows if row not in slow]
        runs = sum(row.runs for row in slow)
        told = [f"too slow for a limit of {self.within:g} s in {runs} runs"] if slow and self.within is not None else []
        return "\n".join([*self.summary, *told, *rows, *self._wrong, *self.left_out])

    @property
    def _wrong(self) -> List[str]:
        """A line with the first wrong answer beside the right one."""
        wrong = [row for row in self.failures if row.first.verdict.kind is Kind.WRONG and row.first.detail]
        return [f"{self._connection(row)}{row.stream} {row.offset} {row.fault}: answer {row.first.detail}" for row in wrong[:1]]

    def _connection(self, row: SweepRow) -> str:
        """The proxy and the connection of a row, where there are others."""
        return f"{printed(row.proxy)} {row.connection} " if len(self.links) > 1 or not row.number else ""

    @property
    def _too_slow(self) -> List[SweepRow]:
        """Hangs in many rows under faults that end the conversation at once: the limit is too short for the client on this machine."""
        hangs = [row for row in self.rows if row.outcome == "hang" and row.fault in AT_ONCE]
        return hangs if len(hangs) > MAX_HANGS else []

    def members(self) -> Dict[str, object]:
        """The table as a JSON object."""
        about = None if self.about is None else self.about.members()
        streams = [{**_stream_members(stream), "bytes": stream.bytes, "boundaries": stream.boundaries} for stream in self.streams]
        rows = [{**_stream_members(row), **_row_members(row)} for row in self.rows]
        table = {"about": about, "streams": streams, "rows": rows, "runs": len(self.swept), "chosen": self.chosen, "possible": self.possible}
        whole = {"recorded": [stream.members() for stream in self.streams], "points": swept_members(self.swept)}
        return {**table, "seconds": round(self.seconds, 3), "ended": self.ended, **whole}

    def json_text(self) -> str:
        """The table as JSON."""
        return json.dumps(self.members(), indent=1) + "\n"

    def page_text(self) -> str:
        """The table as one HTML page, with a strip for each stream and fault."""
        return page_text(self.streams, self.swept, [*self.summary, *self.left_out])


def _stream_members(part: Union[StreamBytes, SweepRow]) -> Dict[str, object]:
    return {"proxy": part.proxy, "link": part.number, "stream": part.stream}


def _row_members(row: SweepRow) -> Dict[str, object]:
    members: Dict[str, object] = {"fault": row.fault, "offset": row.offset, "last_offset": row.last_offset, "runs": row.runs}
    members.update({"shortest_delay": row.delays[0], "longest_delay": row.delays[1]} if row.delays[1] else {})
    return {**members, "outcome": row.outcome, "fails": row.fails, "reached": row.first.reached, "detail": row.first.detail}
