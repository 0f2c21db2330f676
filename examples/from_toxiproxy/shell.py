"""The commands of a shell script, as far as a setup needs them: words, and what is given on standard input."""
import os
import re
import shlex
from dataclasses import dataclass, field
from typing import Iterator, List, Optional, Tuple

CLI = "toxiproxy-cli"
HTTPIE = ("http", "https", "xh", "xhs")
PROGRAMS = (CLI, "curl", "wget", *HTTPIE)
# One of these programs where a command may name it.
CALL = re.compile(rf"(?<![\w.-])({'|'.join(PROGRAMS)})(?=[\"'\s]|$)")
# What ends a command of a shell, or begins a redirection.
PUNCTUATION = "();<>|&"
HERE_DOCUMENT = re.compile(r"(?<!<)<<(-?)\s*(['\"]?)(\w+)\2(?!<)")
# A quote, a comment, or a sign that is no quote.
QUOTING = re.compile(r"\\.|['\"#]")
# Programs that print their one argument into a pipe.
PRINTING = ("echo", "printf")


@dataclass(frozen=True)
class Statement:
    """Lines that belong together: the number of the first, from 1, their text, and the text of a here-document."""

    number: int
    text: str
    document: Optional[str] = None


@dataclass
class Command:
    """The words of a command, the text on its standard input, and the file there. None where neither is known."""

    words: List[str] = field(default_factory=list)
    given: Optional[str] = None
    file: Optional[str] = None

    def behind(self, *programs: str) -> Optional[Tuple[str, List[str]]]:
        """The program among these that is called, whatever path or command is before it, and the words behind its name."""
        names = [os.path.basename(word) for word in self.words]
        at = next((place for place, name in enumerate(names) if name in programs), None)
        return None if at is None else (names[at], self.words[at + 1 :])


def statements(text: str) -> Iterator[Statement]:
    """The statements of a script without comments. A backslash at the end joins lines, and so does an open quote of a call."""
    lines = text.split("\n")
    at = 0
    while at < len(lines):
        number = at + 1
        joined, at = _continued(lines, at)
        if joined.lstrip().startswith("#"):
            continue
        if CALL.search(joined):
            joined, at = _closed(joined, lines, at)
            joined, document, at = _with_document(joined, lines, at)
            yield Statement(number, joined, document)
        else:
            yield Statement(number, joined)


def _continued(lines: List[str], at: int) -> Tuple[str, int]:
    """The line at a place with those that backslashes join to it, and the place behind."""
    joined = lines[at]
    at += 1
    while joined.endswith("\\") and at < len(lines):
        joined = f"{joined[:-1]} {lines[at]}"
        at += 1
    return joined, at


def _closed(joined: str, lines: List[str], at: int) -> Tuple[str, int]:
    """A line with those up to the end of its open quote. A quote that never ends, or behind which there is no call, is the line's own."""
    parts, behind = [joined], at
    quote = _open_quote(joined)
    while quote and behind < len(lines):
        line, behind = _continued(lines, behind)
        parts.append(line)
        quote = _open_quote(line, quote)
    whole = "\n".join(parts)
    if _is_open(whole):
        return joined, at
    called = any(command.behind(*PROGRAMS) for command in commands_of(Statement(0, whole)))
    return (whole, behind) if called else (joined, at)


def _with_document(joined: str, lines: List[str], at: int) -> Tuple[str, Optional[str], int]:
    """A line without the mark of its here-document, that document, and the place behind it."""
    found = HERE_DOCUMENT.search(joined)
    ends = [] if found is None else [place for place in range(at, len(lines)) if (lines[place].lstrip("\t") if found[1] else lines[place]) == found[3]]
    if found is None or not ends:
        return joined, None, at
    return joined[: found.start()] + joined[found.end() :], "\n".join(lines[at : ends[0]]), ends[0] + 1


def _open_quote(line: str, quote: str = "") -> str:
    """The quote that is open behind a line, where `quote` was open before it. Empty for none."""
    for found in QUOTING.finditer(line):
        sign = found[0]
        if not quote and sign == "#":
            return ""
        if not quote and sign in ("'", '"'):
            quote = sign
        elif sign == quote or (quote == "'" and sign == "\\'"):
            quote = ""
    return quote


def _is_open(text: str) -> bool:
    try:
        list(_tokens(text))
    except ValueError:
        return True
    return False


def _tokens(text: str) -> Iterator[str]:
    lexer = shlex.shlex(text, posix=True, punctuation_chars=PUNCTUATION)
    lexer.whitespace_split = True
    return iter(lexer)


def commands_of(statement: Statement) -> List[Command]:
    """The commands of a statement. Raises `ValueError` where a quote stays open."""
    commands = [Command(given=statement.document)]
    tokens = list(_tokens(statement.text))
    for place, token in enumerate(tokens):
        before = tokens[place - 1] if place else ""
        if not set(token) <= set(PUNCTUATION):
            if not _is_redirection(before):
                commands[-1].words.append(token)
        elif _is_redirection(token):
            _redirect(commands[-1], token, tokens[place + 1 : place + 2])
        else:
            commands.append(Command(given=_printed(commands[-1]) if token == "|" else None))
    # A here-document may be that of a later command of its line.
    commands[-1].given = commands[-1].given or statement.document
    return commands


def _is_redirection(token: str) -> bool:
    return token != "" and set(token) <= set(PUNCTUATION) and ("<" in token or ">" in token)


def _redirect(command: Command, token: str, target: List[str]) -> None:
    # The number of a descriptor, as in `2>&1`.
    if command.words and command.words[-1].isdigit():
        command.words.pop()
    if token == "<<<":
        command.given = "".join(target)
    elif token == "<":
        command.file = "".join(target)


def _printed(command: Command) -> Optional[str]:
    """What a command puts into a pipe, if that is known."""
    found = command.behind(*PRINTING)
    return None if found is None else " ".join(word for word in found[1] if word not in ("-n", "-e"))
