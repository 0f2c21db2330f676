"""What `toxi check` finds in the rules before they are served."""
import os
import re
import sys
import warnings
from typing import Iterable

from .errors import ToxiError, ToxiWarning
from .places import Rules, place_of

# The package, and its plugin's functions: a warning names the line that called them.
PACKAGE = os.path.dirname(__file__) + os.sep
FOUND = re.compile(r"rule (\d+)(?: toxic (\d+))? ")
UNKNOWN_PROXY = re.compile(r"rule \d+ never applies: no proxy ")


def judge_findings(lines: Iterable[str], rules: Rules) -> None:
    """Raises `ToxiError` for rules of unknown proxies. The other findings are `ToxiWarning`s."""
    placed = [_with_place(line, rules) for line in lines]
    unknown = [finding for finding in placed if UNKNOWN_PROXY.match(finding)]
    if unknown:
        raise ToxiError("\n".join(unknown))
    for finding in placed:
        warnings.warn(finding, ToxiWarning, stacklevel=_level_of_caller())


def _with_place(line: str, rules: Rules) -> str:
    found = FOUND.match(line)
    return f"{line}, at {place_of(rules, int(found[1]), int(found[2] or 0))}" if found else line


def _level_of_caller() -> int:
    """The `stacklevel` with which a warning of the calling function names the first frame outside the package."""
    level = 0
    frame = sys._getframe(1)
    while frame.f_back is not None and frame.f_code.co_filename.startswith(PACKAGE):
        frame = frame.f_back
        level += 1
    return level + 1
