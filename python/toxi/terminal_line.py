"""A line on a terminal that is written anew."""
import shutil
from typing import TextIO

# Goes to the line's start, and clears what follows.
CLEAR = "\r\x1b[K"


class TerminalLine:
    """Tells how far something is. Nothing is written where no terminal is."""

    def __init__(self, stream: TextIO) -> None:
        self._stream = stream

    def show(self, text: str) -> None:
        """Writes a text in place of the one before, as far as it fits."""
        self._write(CLEAR + text[: shutil.get_terminal_size().columns - 1])

    def end(self) -> None:
        """Clears it."""
        self._write(CLEAR)

    def _write(self, text: str) -> None:
        if self._stream.isatty():
            self._stream.write(text)
            self._stream.flush()
