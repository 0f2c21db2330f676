"""The blocks of a shell script: its `for` loops over words that are known, and what runs only sometimes."""
import re
from dataclasses import replace
from typing import Iterator, List, Optional, Tuple

from .shell import Statement

# What separates the pieces of a line, or changes how the text behind it is quoted.
PART = re.compile(r"\\.|'|\"|;;|;|\bdone\b", re.S)
LOOP = re.compile(r"for\s+(\w+)\s+in\s+(.*)", re.S)
KEYWORD = re.compile(r"(?:do|then|else|\{)(?:\s+|$)")
OPENS = re.compile(r"(?:if|while|until|case|for|select)\b|(?:function\s+)?[\w-]+\s*\(\)|\{(?:\s|$)")
CLOSES = re.compile(r"(?:fi|done|esac|\})(?:\s|$)")


def pieces_of(statements: Iterator[Statement]) -> List[Statement]:
    """The statements cut at each semicolon, without the words `do`, `then`, `else` and `{` before a command."""
    pieces = []
    for statement in statements:
        for text in _cut(statement.text):
            text = _without_keywords(text)
            if text:
                pieces.append(replace(statement, text=text))
    return pieces


def _cut(text: str) -> List[str]:
    parts, quote, behind = [], "", 0
    for found in PART.finditer(text):
        sign = found[0]
        if sign in ("'", '"'):
            quote = "" if quote == sign else quote or sign
        elif sign == ";" and not quote:
            parts.append(text[behind : found.start()])
            behind = found.end()
    return parts + [text[behind:]]


def _without_keywords(text: str) -> str:
    text = text.strip()
    while found := KEYWORD.match(text):
        text = text[found.end() :]
    return text


def loop_at(pieces: List[Statement], at: int) -> Optional[Tuple[str, str, int]]:
    """The loop that begins with a piece: its variable, the text of its words, and the place of its `done`. None where there is none."""
    found = LOOP.match(pieces[at].text)
    end = _end_of(pieces, at) if found else None
    return None if found is None or end is None else (found[1], found[2], end)


def _end_of(pieces: List[Statement], at: int) -> Optional[int]:
    depth = 0
    for place in range(at, len(pieces)):
        depth += opened(pieces[place].text)
        if depth == 0:
            return place
    return None


def opened(text: str) -> int:
    """How many blocks a piece opens: -1 if it closes one."""
    if CLOSES.match(text):
        return -1
    return 1 if OPENS.match(text) and not _closes_itself(text) else 0


def _closes_itself(text: str) -> bool:
    return bool(re.search(r"(?:^|\s)(?:fi|done|esac|\})\s*$", text))
