"""`serve` for many runs of a client: its rules aren't checked, and no thread reads its lines."""
import contextlib
import os
import select
import subprocess
import tempfile
import threading
import time
import weakref
from pathlib import Path
from typing import Callable, Container, Dict, Iterable, List, Optional, Sequence

from ..lines import Address, Link
from ..process import STOP_LIMIT, Process, _kill, signals_held, tied_to_parent
from ..program import environment
from ..runs import Run
from ..served import Toxi

# A link of a client that has returned may live on. So long it is waited for, and for the end of its log, in seconds.
SETTLE = 1.0
LOG_DELAY = 0.1
# Between two looks for lines, in seconds.
BETWEEN = 0.001
# So much of standard output is read at once, in bytes. It is more than a pipe has.
READ = 1 << 17


class Unchecked(Toxi):
    """Rules of a search often have no effect, which needs no warning. `serve` refuses what `check` would refuse."""

    def _checked(self, run: Run) -> Run:
        return run

    def kill(self) -> None:
        """As `stop`, without the lines of links that still live, and without the 50 ms that `serve` takes to look for SIGTERM."""
        self._running().kill()
        self.stop()


class UnreadProcess(Process):
    """A running program whose lines are read when somebody asks for them. A thread that reads each costs as much as a small client.

    A pipe that is full holds up the program's lines, and none of its links.
    """

    def __init__(self, command: Sequence[str], lines: List[str], said: List[str]) -> None:
        self._lines, self._texts = lines, said
        self._said = tempfile.TemporaryFile()
        with signals_held():
            self._child = subprocess.Popen(
                [*tied_to_parent(), *command],
                stdin=subprocess.DEVNULL,
                stdout=subprocess.PIPE,
                stderr=self._said,
                encoding="utf-8",
                env=environment(),
            )
            self._kill = weakref.finalize(self, _kill, self._child)
        assert self._child.stdout is not None
        self._pipe = self._child.stdout.fileno()
        os.set_blocking(self._pipe, False)
        self._polled = select.poll()
        self._polled.register(self._pipe, select.POLLIN)
        self._rest = b""
        self._open = True
        self._reading = threading.RLock()

    @property
    def status(self) -> Optional[int]:
        """The status of a process that has ended. None while it runs."""
        return self._child.poll() if self.writes else self._child.wait(STOP_LIMIT)

    @property
    def writes(self) -> bool:
        """Whether more lines may come."""
        self.read()
        return self._open

    def read(self) -> None:
        """Takes the lines that are there."""
        with self._reading:
            while self._open:
                try:
                    some = os.read(self._pipe, READ)
                except BlockingIOError:
                    return
                *whole, self._rest = (self._rest + some).split(b"\n")
                self._lines.extend([line.decode("utf-8", "replace") for line in whole])
                if not some:
                    self._close()

    def _close(self) -> None:
        """Its lines have ended, so standard error is whole."""
        assert self._child.stdout is not None
        self._open = False
        self._child.stdout.close()
        with self._said as said:
            said.seek(0)
            self._texts.extend(said.read().decode("utf-8", "replace").split("\n")[:-1])

    def wait_until(self, holds: Callable[[], bool], timeout: float) -> bool:
        """Waits for what its lines tell. False once they have ended or the time is up, and it doesn't hold."""
        end = time.monotonic() + timeout
        while True:
            self.read()
            if holds():
                return True
            left = end - time.monotonic()
            if left <= 0 or not self._open:
                return False
            self._polled.poll(left * 1000)
            # Lines come in close order. Each look costs as much as a line.
            time.sleep(BETWEEN)

    def wait(self, timeout: float) -> int:
        """Waits until it ends, with its lines. Raises `subprocess.TimeoutExpired`."""
        end = time.monotonic() + timeout
        self.wait_until(self._is_closed, timeout)
        return self._child.wait(max(0, end - time.monotonic()))

    def _is_closed(self) -> bool:
        return not self._open


class BatchToxi(Unchecked):
    """The proxies of a batch, whose names are printed as they are."""

    _process: Optional[UnreadProcess]

    def _serve(self, run: Run) -> None:
        self._expected = len(self._enabled())
        self._serving(run)
        self._process = process = UnreadProcess(run.serve_command(), run.lines, run.said)
        if not process.wait_until(self._listens, self._start_timeout):
            late = process.writes
            status = process.stop()
            raise self._late() if late else self._error(status)

    def _listens(self) -> bool:
        if len(self._run.lines) >= self._expected:
            self._addresses = self._run.listening()
        return len(self._addresses) >= self._expected

    def take_lines(self) -> None:
        """Reads the lines that are there, so that a run with many connections fills no pipe."""
        if self._process is not None:
            self._process.read()

    def links(self, proxy: Optional[str] = None) -> List[Link]:
        """The links that have ended so far."""
        self.take_lines()
        return super().links(proxy)

    def listening(self) -> Dict[str, Address]:
        """Where its proxies listen."""
        return self._addresses

    def settled_links(self, proxies: Container[str]) -> List[Link]:
        """The links of some proxies, once there is one, each that has logs has its line, and its log is whole, or after `SETTLE` seconds."""
        end = time.monotonic() + SETTLE
        while time.monotonic() < end:
            links = {(link.proxy, link.number) for link in self.links() if link.proxy in proxies}
            if links and len(links) >= len({log.name.rpartition("-")[0] for log in self.logs_of(proxies)}):
                time.sleep(LOG_DELAY)
                break
            time.sleep(LOG_DELAY / 10)
        return [link for link in self.links() if link.proxy in proxies]

    def logs_of(self, proxies: Container[str]) -> List[Path]:
        """The logs of some proxies so far. None where it keeps no logs."""
        return [log for log in self.logs() if log.name.rsplit("-", 2)[0] in proxies]


def remove_all(files: Iterable[Path]) -> None:
    """Removes files. `TemporaryDirectory` looks at each more than once before it does."""
    for file in files:
        with contextlib.suppress(FileNotFoundError):
            os.unlink(file)
