"""What can go wrong."""
import itertools
import re
from typing import Optional, Sequence

from .places import Rules, place_of

FAULT = re.compile(r"toxi: ([A-Z]\d)(?: (.*))?")
# A fault of a script: the rule and the toxic behind the name.
PLACED = re.compile(r"S\d \w+ (\d+) (\d+)(?: (\w+))?")
# What a line of an explanation begins with.
INDENT = "  "


class ToxiError(Exception):
    """The program couldn't be started, or ended as it should not, or a rule is for no proxy."""


class ToxiEnded(ToxiError):
    """The program has ended, so what was waited for can't come."""


class ToxiFault(ToxiError):
    """The program refused its files or couldn't serve.

    `line` is the fault's line without `toxi: `, `code` its code, and `place` where it stands in the rules, or None. `explanation` has
    the lines below it: what is there, what is accepted, and what to write.
    """

    def __init__(self, line: str, place: Optional[str] = None, explanation: Sequence[str] = ()) -> None:
        super().__init__("\n".join([f"{line}, at {place}" if place else line, *(f"  {each}" for each in explanation)]))
        self.line = line
        self.code = line.split(" ")[0]
        self.place = place
        self.explanation = tuple(explanation)


class ToxiWarning(UserWarning):
    """A rule or a toxic has no effect, or not the whole one, or a toxicity reads as percent.

    Of what `toxi check` finds the text is its line, with its place in the rules.
    """


def error_of(said: Sequence[str], status: Optional[int], rules: Rules) -> ToxiError:
    """The error of a program that ended with this status and these lines on standard error."""
    for place, line in reversed(list(enumerate(said))):
        if FAULT.fullmatch(line):
            fault = line[len("toxi: ") :]
            found = PLACED.fullmatch(fault)
            below = itertools.takewhile(lambda each: each.startswith(INDENT), said[place + 1 :])
            explanation = [each[len(INDENT) :] for each in below]
            return ToxiFault(fault, place_of(rules, int(found[1]), int(found[2])) if found else None, explanation)
    return ToxiEnded(f"toxi ended with status {status}: " + ("\n".join(said) or "nothing on standard error"))
