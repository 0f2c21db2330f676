"""How far a search or a sweep in Python is: a line on a terminal, or else one each ten seconds."""
import contextlib
import sys
import time
from typing import Callable, Generic, Iterator, Optional, TypeVar

from ..find_progress import progress_text
from ..terminal_line import TerminalLine
from .searching import Watch

Shown = TypeVar("Shown")
# In seconds.
EACH = 10.0


class _Slowly(Generic[Shown]):
    """Writes a line each ten seconds, where no terminal is."""

    def __init__(self, text_of: Callable[[Shown], str]) -> None:
        self._text_of = text_of
        self._next = time.monotonic() + EACH

    def __call__(self, progress: Shown) -> None:
        if time.monotonic() >= self._next:
            self._next = time.monotonic() + EACH
            print(f"toxi: {self._text_of(progress)}", file=sys.stderr, flush=True)


@contextlib.contextmanager
def python_line(text_of: Callable[[Shown], str]) -> Iterator[Callable[[Shown], object]]:
    """What is called after each run: it shows the text of how far it is."""
    if not sys.stderr.isatty():
        yield _Slowly(text_of)
        return
    line = TerminalLine(sys.stderr)
    try:
        yield lambda progress: line.show(text_of(progress))
    finally:
        line.end()


@contextlib.contextmanager
def python_progress(watch: Optional[Watch]) -> Iterator[Watch]:
    """What is called after each run of a search in Python: what is given, or else the line."""
    if watch is not None:
        yield watch
        return
    with python_line(progress_text) as shown:
        yield shown
