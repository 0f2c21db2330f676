"""Results as Markdown, behind what a step of GitHub's CI has told so far."""
from typing import Iterable, List

from .client_results import Result, client_of, summary_of
from .fault_lines import FaultLine, lines_of

# The variable that names the file of a step.
VARIABLE = "GITHUB_STEP_SUMMARY"
COLUMNS = ("Connection and stream", "Fault", "Outcome", "Runs", "First failure")


def markdown_text(results: Iterable[Result]) -> str:
    """A heading for each client, how far it came, and a table of the lines that fail."""
    return "".join(_part(result) for result in results)


def _part(result: Result) -> str:
    lines = [line for line in lines_of(result) if line.failures]
    rows = [_row(COLUMNS), _row(["---"] * len(COLUMNS)), *map(_line_row, lines)] if lines else ["Nothing is to be mended."]
    return "\n".join([f"### {_plain(client_of(result))}", "", *(f"- {_plain(line)}" for line in summary_of(result).split("\n")), "", *rows, "", ""])


def _line_row(line: FaultLine) -> str:
    first = line.failures[0].split("\n")[0]
    return _row([line.where, line.fault, line.outcome, str(line.runs), first])


def _row(cells: Iterable[str]) -> str:
    texts: List[str] = [_plain(cell) for cell in cells]
    return f"| {' | '.join(texts)} |"


def _plain(text: str) -> str:
    """A text that Markdown takes for itself."""
    return "".join(f"\\{each}" if each in "\\`*_[]<>|#" else each for each in text)
