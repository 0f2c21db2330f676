"""The line on a terminal that tells how far a search is."""
from typing import Optional, Sequence, TextIO

from ._search.searching import Progress, Smallest
from .rules import Rule
from .terminal_line import TerminalLine
from .toxics import Toxic


class ProgressLine(TerminalLine):
    """Written after each run: the runs, the phase, and the kind and the rules of the smallest fault so far."""

    def __init__(self, stream: TextIO) -> None:
        super().__init__(stream)
        self.runs = 0
        self.smallest: Optional[Smallest] = None

    def __call__(self, progress: Progress) -> None:
        self.runs, self.smallest = progress.runs, progress.smallest
        self.show(progress_text(progress))


def progress_text(progress: Progress) -> str:
    """The runs, the phase, and the kind and the rules of the smallest fault so far."""
    told = f"{progress.runs} runs, {progress.phase}"
    if progress.smallest is not None:
        told += f", {progress.smallest.verdict}: {short_text(progress.smallest.rules)}"
    return told


def short_text(rules: Sequence[Rule]) -> str:
    """Rules in one line: `shop 1..2 downstream limit_data:bytes=5`."""
    return "; ".join(f"{rule.proxy} {rule.first}..{'' if rule.last is None else rule.last} {', '.join(map(_short, rule.toxics))}" for rule in rules)


def _short(toxic: Toxic) -> str:
    values = [*toxic.attributes().items(), *([] if toxic.toxicity is None else [("toxicity", toxic.toxicity)])]
    return f"{toxic.stream} {toxic.type}:{','.join(f'{name}={value}' for name, value in values)}"
