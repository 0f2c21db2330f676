"""`FaultLine`: what a client came to under one fault of a stream of a connection, in a search or in a sweep."""
import itertools
from dataclasses import dataclass
from typing import Dict, List, Optional, Tuple

from ._search.result import SearchResult, Tried
from .client_results import Result, safe_text
from .found import Found
from .lines import printed
from .outcomes import HANG, UNSETTLED, WRONG, Kind
from .page_parts import CLASSES, MISSED
from .sweep_rows import NOT_REACHED, SweepRow, rows_of
from .sweep_table import Sweep

KINDS = {str(verdict): verdict.kind for verdict in (WRONG, UNSETTLED, HANG)}
# The worst last.
SEVERITIES = list(Kind)


@dataclass(frozen=True)
class FaultLine:
    """A line: `where` are the connection and the stream, `kind` is the worst of what came, or None where no run reached the fault. `failures` are texts for a
    person, the first line of each in short."""

    where: str
    fault: str
    kind: Optional[Kind]
    runs: int
    failures: Tuple[str, ...] = ()

    @property
    def name(self) -> str:
        """The line in words: `1 downstream closed`."""
        return f"{self.where} {self.fault}"

    @property
    def css_class(self) -> str:
        """The class of its colour on a page."""
        return MISSED if self.kind is None else CLASSES[self.kind]

    @property
    def outcome(self) -> str:
        """The outcome in a word or two."""
        return NOT_REACHED if self.kind is None else self.kind.value


def lines_of(result: Result) -> List[FaultLine]:
    """The lines of a search or of a sweep. Those of a search count all its proxies together."""
    return _lines_of_sweep(result) if isinstance(result, Sweep) else _lines_of_search(result)


def _lines_of_search(result: SearchResult) -> List[FaultLine]:
    failing: Dict[Tuple[str, str, str], List[Found]] = {}
    for found in result.found:
        # The first of its faults has it.
        word, stream, number = found.places[0] if found.places else ("", "", 0)
        failing.setdefault((word, stream, str(number or "all")), []).append(found)
    lines = [_search_line(tried, failing.pop((tried.fault, tried.stream, tried.connection), [])) for tried in result.tried]
    return lines + [_search_line(Tried(*place, 0, 0), found) for place, found in failing.items()]


def _search_line(tried: Tried, found: List[Found]) -> FaultLine:
    kinds = [KINDS.get(each.kind, Kind.FAILED) for each in found]
    kind = max(kinds, key=SEVERITIES.index) if kinds else Kind.RIGHT if tried.reached else None
    return FaultLine(f"{tried.connection} {tried.stream}", tried.fault, kind, tried.runs, tuple(safe_text(str(each)) for each in found))


def _lines_of_sweep(sweep: Sweep) -> List[FaultLine]:
    ordered = sorted(rows_of(sweep.swept, sweep.streams), key=lambda row: row.first.point.line)
    return [_sweep_line(list(rows)) for _, rows in itertools.groupby(ordered, lambda row: row.first.point.line)]


def _sweep_line(rows: List[SweepRow]) -> FaultLine:
    first = rows[0]
    kinds = [_kind_of(row) for row in rows if row.fails or row.outcome != NOT_REACHED]
    kind = max(kinds, key=SEVERITIES.index) if kinds else None
    failures = tuple(safe_text(f"{row}\n{row.first.detail}".rstrip("\n")) for row in rows if row.fails)
    return FaultLine(f"{printed(first.proxy)} {first.connection} {first.stream}", first.fault, kind, sum(row.runs for row in rows), failures)


def _kind_of(row: SweepRow) -> Kind:
    """What came once and not again counts as right."""
    return row.first.verdict.kind if row.fails or not row.first.verdict.is_fault else Kind.RIGHT
