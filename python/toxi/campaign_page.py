"""The page of many clients: a row for each, a strip for each fault, and what is new, mended and flaky."""
from html import escape
from typing import Dict, List, Sequence

from ._search.memory import MENDED
from ._search.result import SearchResult
from ._search.words import SEARCHED
from .client_results import Result, client_of, is_failing, safe_text, summary_of
from .fault_lines import FaultLine, lines_of
from .page_parts import document, key, table
from .search_page import strip

STATES = ("New", "Known", "Mended", "Flaky")


def page_text(results: Sequence[Result]) -> str:
    """The page of the results of some clients."""
    lines = [lines_of(result) for result in results]
    words = [word for word in SEARCHED if any(line.fault == word for each in lines for line in each)]
    rows = [_row(result, each, words) for result, each in zip(results, lines)]
    failing = sum(map(is_failing, results))
    body = [f"<p>{failing} of {len(results)} clients are to be mended</p>", *key({line.css_class for each in lines for line in each})]
    details = [part for result, each in zip(results, lines) for part in _details(result, each)]
    return document("Toxi clients", [*body, *table(["Client", *words, *STATES], rows), *details])


def states_of(result: Result) -> Dict[str, int]:
    """How many failures are new and known, where faults are remembered, and how many are mended and flaky. What isn't known is missing."""
    if not isinstance(result, SearchResult):
        return {"Flaky": sum(run.other_runs > 0 for run in result.swept)}
    found = {"Flaky": len(result.flaky)}
    if result.remembered or any(each.remembered for each in result.found):
        before = {each.file for each in result.remembered}
        known = sum(each.remembered in before for each in result.found)
        mended = sum(each.state == MENDED for each in result.remembered)
        found.update({"New": len(result.found) - known, "Known": known, "Mended": mended})
    return found


def _row(result: Result, lines: Sequence[FaultLine], words: Sequence[str]) -> str:
    """A strip has a segment for each stream of each connection."""
    by_word = {word: [line for line in lines if line.fault == word] for word in words}
    strips = "".join(f"<td>{strip(by_word[word]) if by_word[word] else ''}</td>" for word in words)
    states = states_of(result)
    counts = "".join(f'<td class="number">{states.get(state, "")}</td>' for state in STATES)
    opening = '<tr class="fails">' if is_failing(result) else "<tr>"
    return f'{opening}<th scope="row">{escape(client_of(result))}</th>{strips}{counts}</tr>'


def _details(result: Result, lines: Sequence[FaultLine]) -> List[str]:
    """What fails of a client in words, and what became of its remembered faults."""
    remembered = list(map(str, result.remembered)) if isinstance(result, SearchResult) else []
    failures = [f"<h3>{escape(line.name)}</h3><pre>{escape(failure)}</pre>" for line in lines for failure in line.failures]
    said = [f'<p class="said">{escape(safe_text(text))}</p>' for text in [*summary_of(result).split("\n"), *remembered]]
    return [f"<h2>{escape(client_of(result))}</h2>", *said, *failures]
