"""The page of a sweep: a strip for each stream and fault, and the table. It needs no other file and no script, and is XML too."""
import itertools
from html import escape
from typing import Dict, Iterable, List, Sequence

from .conversations import StreamBytes
from .fault_points import FAULTS
from .lines import printed
from .page_parts import CLASSES, MISSED, document, key, table
from .sweep_rows import NOT_REACHED, SweepRow, SweptRun, rows_of, unbroken_rows_of

COLUMNS = ("Outcome", "Proxy", "Link", "Stream", "Fault", "Offsets", "Runs", "Detail of the first")
# A strip says so many of its rows in words; the table has them all.
MAX_SAID = 12


def page_text(streams: Sequence[StreamBytes], swept: Sequence[SweptRun], lines: Iterable[str]) -> str:
    """The page of what was swept, with some lines at its top."""
    rows = rows_of(swept, streams)
    body = [f"<p>{escape(line)}</p>" for line in lines] + key({_class_of(row) for row in rows})
    strips = {stream.key: [row for row in unbroken_rows_of(swept, streams) if _is_of(row, stream)] for stream in streams}
    for stream in streams:
        body += _stream_part(stream, strips[stream.key], [row for row in rows if _is_of(row, stream)])
    return document("Toxi sweep", [*body, *_table(rows)])


def _is_of(row: SweepRow, stream: StreamBytes) -> bool:
    """Whether a row is of a stream. Those of all connections stand in the table alone."""
    return row.number > 0 and row.first.point.key == stream.key


def _class_of(row: SweepRow) -> str:
    return MISSED if row.outcome == NOT_REACHED else CLASSES[row.first.verdict.kind]


def _stream_part(stream: StreamBytes, strips: Sequence[SweepRow], rows: Sequence[SweepRow]) -> List[str]:
    """The strips of a stream, and below them the boundaries of what arrived without a fault."""
    part = [f"<h2>{escape(printed(stream.proxy))} {stream.number} {stream.stream}</h2>"]
    part.append(f'<p class="said">bytes: {stream.bytes}, pieces that came: {len(stream.pieces)}</p>')
    width = stream.bytes + 1
    by_fault: Dict[str, List[SweepRow]] = {fault: [row for row in strips if row.fault == fault] for fault in FAULTS}
    for fault in (fault for fault in FAULTS if by_fault[fault]):
        part += [f"<h3>{stream.stream} {fault}</h3>", f'<div class="strip">{"".join(_segment(row, width) for row in by_fault[fault])}</div>']
        part.append(f'<div class="ticks">{"".join(_tick(offset, width) for offset in stream.boundaries)}</div>')
        part.append(f'<p class="said">{escape(_said([row for row in rows if row.fault == fault]))}</p>')
    return part


def _segment(row: SweepRow, width: int) -> str:
    share = 100 * (row.last_offset - row.offset + 1) / width
    title = escape(f"{row}")
    return f'<i class="{_class_of(row)}" style="left:{100 * row.offset / width:.4f}%;width:{share:.4f}%" title="{title}"></i>'


def _tick(offset: int, width: int) -> str:
    return f'<i style="left:{100 * offset / width:.4f}%"></i>'


def _said(rows: Sequence[SweepRow]) -> str:
    """The first rows in words, those to be mended first."""
    said = [f"{row.offsets}: {row.outcome}{row.notes}" for row in itertools.islice(rows, MAX_SAID)]
    return "; ".join(said + ([f"and {len(rows) - MAX_SAID} rows more"] if len(rows) > MAX_SAID else []))


def _table(rows: Iterable[SweepRow]) -> List[str]:
    return ["<h2>All rows</h2>", *table(COLUMNS, map(_table_row, rows))]


def _table_row(row: SweepRow) -> str:
    where = [("name", printed(row.proxy)), ("number", row.connection), ("name", row.stream), ("name", row.fault), ("number", row.offsets)]
    texts = [*where, ("number", str(row.runs)), ("detail", row.first.detail)]
    cells = "".join(f'<td class="{kind}">{escape(text)}</td>' for kind, text in texts)
    opening = '<tr class="fails">' if row.fails else "<tr>"
    return f'{opening}<th scope="row">{escape(row.outcome)}</th>{cells}</tr>'
