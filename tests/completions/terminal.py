"""A shell in a terminal of its own, into which lines are typed."""
import fcntl
import os
import pty
import select
import signal
import struct
import termios
import time
from typing import Dict, List

# How long a shell may take to answer, in seconds.
PATIENCE = 60.0


class Terminal:
    """A shell that is typed into. At the keys `SHOW` it writes the line that is being edited into a file, and empties the line."""

    SHOW = "\x181"

    def __init__(self, command: List[str], folder: str, answer: str, environment: Dict[str, str]):
        self.answer = answer
        self.shown = b""
        self.process, self.end = pty.fork()
        if self.process == 0:
            os.chdir(folder)
            os.execvpe(command[0], command, {**environment, "ANSWER": answer})
        fcntl.ioctl(self.end, termios.TIOCSWINSZ, struct.pack("HHHH", 60, 240, 0, 0))
        self._wait_until_ready()

    def edited(self, keys: str) -> str:
        """The line that these keys make."""
        if not self._typed(keys + self.SHOW, PATIENCE):
            raise AssertionError(f"no answer to {keys!r}: {self.shown.decode(errors='replace')}")
        with open(self.answer, encoding="utf-8") as file:
            line = file.read()
        os.remove(self.answer)
        return line

    def _wait_until_ready(self) -> None:
        """Types until there is an answer, since a shell may drop what is typed before it is ready."""
        until = time.monotonic() + PATIENCE
        while not self._typed(self.SHOW, 1):
            if time.monotonic() > until:
                raise AssertionError(f"the shell doesn't start: {self.shown.decode(errors='replace')}")
        # Each key may be answered.
        while os.path.exists(self.answer):
            os.remove(self.answer)
            self._typed("", 1)

    def _typed(self, keys: str, seconds: float) -> bool:
        """Whether an answer to these keys came in time."""
        os.write(self.end, keys.encode())
        until = time.monotonic() + seconds
        while time.monotonic() < until:
            if select.select([self.end], [], [], 0.02)[0]:
                self.shown += os.read(self.end, 65536)
            if os.path.exists(self.answer):
                return True
        return False

    def close(self) -> None:
        os.kill(self.process, signal.SIGKILL)
        os.waitpid(self.process, 0)
        os.close(self.end)
