"""The variables of a shell script, where they are set to plain text."""
import re
from typing import Dict, List, Optional

# What may stand in place of a variable outside quotes, where the shell splits it at spaces.
PLAIN = re.compile(r"[\w\s./:@%+,=~-]*")
ASSIGNED = re.compile(r"(?:(?:export|local|readonly|declare)\s+)?(\w+)=(.*)", re.S)
SINGLE = re.compile(r"'([^']*)'")
DOUBLE = re.compile(r'"([^"$`\\]*)"')
BARE = re.compile(r"[^\s$`\\'\"*?;&|<>()]*")
# A variable, or what changes how the text behind it is quoted.
PART = re.compile(r"\\.|'|\"|\$(?:\{(\w+)\}|(\w+))", re.S)


def assigned(text: str) -> "Optional[re.Match[str]]":
    """A statement that only sets a variable, by its name and what stands behind `=`. None for another one."""
    found = ASSIGNED.fullmatch(text.strip())
    return found if found and _is_one_word(found[2]) else None


def _is_one_word(value: str) -> bool:
    rest = re.sub(r"'[^']*'|\"(?:[^\"\\]|\\.)*\"|\$\([^)]*\)|`[^`]*`|\\.", "", value, flags=re.S)
    return not re.search(r"\s", rest)


def plain_value(value: str) -> Optional[str]:
    """The text that an assignment gives. None where the shell computes it."""
    for form in (SINGLE, DOUBLE):
        found = form.fullmatch(value)
        if found:
            return found[1]
    return value if BARE.fullmatch(value) else None


class Variables:
    """The values of variables that are known at a place of a script."""

    def __init__(self) -> None:
        self._values: Dict[str, str] = {}

    def set(self, name: str, value: Optional[str]) -> None:
        """Sets a variable. None: its value isn't known from here on."""
        if value is None:
            self._values.pop(name, None)
        else:
            self._values[name] = value

    def expanded(self, text: str) -> str:
        """A text with its known variables expanded. The others stay, and so does all in single quotes."""
        parts: List[str] = []
        quote, behind = "", 0
        for found in PART.finditer(text):
            parts.append(text[behind : found.start()])
            parts.append(self._part(found, quote))
            quote = _quote_behind(found[0], quote)
            behind = found.end()
        return "".join(parts) + text[behind:]

    def _part(self, found: "re.Match[str]", quote: str) -> str:
        value = self._values.get(found[1] or found[2] or "")
        if value is None or quote == "'":
            return found[0]
        if quote:
            return re.sub(r'(["\\])', r"\\\1", value)
        return value if PLAIN.fullmatch(value) else found[0]


def _quote_behind(sign: str, quote: str) -> str:
    if sign not in ("'", '"'):
        return quote
    if quote == sign:
        return ""
    return quote or sign
