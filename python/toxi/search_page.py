"""The page of a search: what was found, what became of remembered faults, and a table of what was tried, drawn as the strips of a sweep are."""
from html import escape
from typing import Dict, Iterable, List, Optional, Sequence

from ._search.result import SearchResult
from ._search.words import SEARCHED
from .client_results import client_of, safe_text
from .fault_lines import FaultLine, lines_of
from .page_parts import document, key, table


def page_text(result: SearchResult) -> str:
    """The page of a search."""
    lines = lines_of(result)
    title = "Toxi search" if result.about is None else f"Toxi search: {client_of(result)}"
    body = [f"<p>{_safe(result.summary)}</p>", *key({line.css_class for line in lines}), *strips(lines), *_found(result)]
    return document(title, [*body, *_listed("Remembered", map(str, result.remembered)), *_flaky(result), *_listed("Time limits", result.limits)])


def strips(lines: Sequence[FaultLine]) -> List[str]:
    """A table with a row for each stream of a connection, and a strip for each fault."""
    words = [word for word in SEARCHED if any(line.fault == word for line in lines)]
    by_place: Dict[str, Dict[str, FaultLine]] = {}
    for line in lines:
        by_place.setdefault(line.where, {})[line.fault] = line
    rows = [f'<tr><th scope="row">{escape(where)}</th>{"".join(_cell(found.get(word)) for word in words)}</tr>' for where, found in by_place.items()]
    return ["<h2>Tried</h2>", *table(["Connection and stream", *words], rows)]


def _cell(line: Optional[FaultLine]) -> str:
    """A strip, and how many runs there were. Where there was none the cell is empty."""
    return "<td></td>" if line is None else f'<td>{strip([line])}<p class="said">{line.runs} runs: {escape(line.outcome)}</p></td>'


def strip(lines: Sequence[FaultLine]) -> str:
    """A strip with a segment for each line, all of one width."""
    width = 100 / max(len(lines), 1)
    segments = [_segment(line, place * width, width) for place, line in enumerate(lines)]
    return f'<div class="strip">{"".join(segments)}</div>'


def _segment(line: FaultLine, left: float, width: float) -> str:
    title = escape(f"{line.name}: {line.outcome}, {line.runs} runs")
    return f'<i class="{line.css_class}" style="left:{left:.4f}%;width:{width:.4f}%" title="{title}"></i>'


def _found(result: SearchResult) -> List[str]:
    return [f"<h2>{_safe(each.kind)} {escape(each.times)}</h2><pre>{_safe(str(each))}</pre>" for each in result.found]


def _flaky(result: SearchResult) -> List[str]:
    return [f"<h2>Flaky: {_safe(each.kind)}</h2><pre>{_safe(each.script)}</pre>" for each in result.flaky]


def _listed(title: str, texts: Iterable[str]) -> List[str]:
    items = [f"<li>{_safe(text)}</li>" for text in texts]
    return [f"<h2>{title}</h2>", f"<ul>{''.join(items)}</ul>"] if items else []


def _safe(text: str) -> str:
    return escape(safe_text(text))
