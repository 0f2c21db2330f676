"""Texts of help as lines of roff, by the requests of man(7)."""
import re
import textwrap
from itertools import groupby
from typing import List

SIGNS = {"\\": "\\(rs", "-": "\\-", "`": "\\(ga", "'": "\\(aq", "^": "\\(ha", "~": "\\(ti"}
# How long a line of the source is at most.
SOURCE_WIDTH = 78
# How long a line may be that keeps its ends: an indent of 7 and one of 4 stand before it, and a page has fewer than 80 columns.
KEPT_WIDTH = 66
KEPT_START = [".PP", ".RS 4", ".nf"]
KEPT_END = [".fi", ".RE"]
COMMAND = re.compile(r"(toxi|printf|find|cat) ")


def plain(text: str) -> str:
    """Text of one line: each sign stands for itself, and the line is no request."""
    return guarded("".join(SIGNS.get(sign, sign) for sign in text))


def guarded(line: str) -> str:
    return "\\&" + line if line[:1] in (".", "'") else line


def bold(text: str) -> str:
    return f"\\fB{plain(text)}\\fR"


def italic(text: str) -> str:
    return f"\\fI{plain(text)}\\fR"


def filled(text: str) -> List[str]:
    """Prose: lines that are filled. Each sentence begins a line."""
    lines = []
    for sentence in re.split(r"(?<=[.:]) (?=[A-Z])", " ".join(text.split())):
        lines += textwrap.wrap(plain(sentence), SOURCE_WIDTH, break_long_words=False, break_on_hyphens=False)
    return [guarded(line) for line in lines]


def kept(lines: List[str]) -> List[str]:
    """Lines that keep their ends, and are indented."""
    fitting = [plain(part) for line in lines for part in fitted(line)]
    return [*KEPT_START, *fitting, *KEPT_END]


def fitted(line: str) -> List[str]:
    """A line, in parts where it is too long. A command goes on behind a backslash."""
    if len(line) <= KEPT_WIDTH:
        return [line]
    if not COMMAND.match(line):
        return textwrap.wrap(line, KEPT_WIDTH, subsequent_indent=" " * 4, break_long_words=False, break_on_hyphens=False)
    parts = [""]
    # An option stays beside its value.
    for word in re.split(r" (?=--|\| )", line):
        if parts[-1] and len(parts[-1]) + len(word) + 3 > KEPT_WIDTH:
            parts.append("   ")
        parts[-1] += (" " if parts[-1] else "") + word
    return [*(f"{part} \\" for part in parts[:-1]), parts[-1]]


def item(head: str, text: str) -> List[str]:
    """A head, which is roff, and what it means."""
    return [".TP", head, *(filled(text) or ["\\&"])]


def body(text: str) -> List[str]:
    """A text of several paragraphs. Lines that are indented are a table, if one of them has columns, else they keep their ends."""
    lines: List[str] = []
    for block in text.strip("\n").split("\n\n"):
        for indented, rows in groupby(block.split("\n"), key=lambda row: row.startswith("  ")):
            run = list(rows)
            if not indented:
                lines += [".PP", *filled(" ".join(run))]
            elif any(re.search(r"\S {2,}\S", row) for row in run):
                lines += table(run)
            elif lines[-2:] == KEPT_END:
                lines[-2:] = ["", *kept([row[2:] for row in run])[len(KEPT_START) :]]
            else:
                lines += kept([row[2:] for row in run])
    return lines


def table(run: List[str]) -> List[str]:
    """Rows of a term, perhaps a key, and what they mean. A row that is indented further goes on with the term before it."""
    lines: List[str] = []
    term = ""
    for row in run:
        cells = re.split(r" {2,}", row.strip())
        goes_on = row.startswith(" " * 4)
        if not goes_on:
            term = bold(cells.pop(0))
        if len(cells) == 2:
            lines += item(f"{term} {plain(cells[0])}", cells[1])
        elif goes_on:
            lines += filled(cells[0])
        else:
            lines += item(term, cells[0]) if cells else [".TP", term]
    return lines
