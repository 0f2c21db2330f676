"""A `serve` that is read line by line and never outlives the tests."""
import contextlib
import shutil
import signal
import subprocess
import threading
import time
import weakref
from typing import IO, Callable, Iterator, List, Optional, Sequence

from .held_input import HeldInput
from .printed_lines import Sink
from .program import environment

# Signals that end this process, and so must not come between the start of a child and the moment when it is kept.
ENDING = {signal.SIGTERM, signal.SIGINT}
# With this option `serve` ends at the end of its standard input, and so with this process.
UNTIL_EOF = "--until-eof"
# `serve` ends within 2 seconds of SIGTERM, or some more with thousands of links. A busy machine gets more, in seconds.
STOP_LIMIT = 10


class Process:
    """A running program. Its lines are read by threads, so that it never waits for its output to be read. Its input ends with this process.

    They go to `lines`, and those of standard error to `said`.
    """

    def __init__(self, command: Sequence[str], lines: Sink, said: Sink) -> None:
        with contextlib.ExitStack() as undone:
            held = HeldInput()
            with signals_held(), held.lent() as reading:
                self._child = subprocess.Popen(
                    command,
                    stdin=reading,
                    stdout=subprocess.PIPE,
                    stderr=subprocess.PIPE,
                    encoding="utf-8",
                    errors="replace",
                    env=environment(),
                )
                # Runs at the interpreter's exit too, and here where a signal that came meanwhile is raised: the caller removes the child's files next.
                self._kill = undone.callback(weakref.finalize(self, _kill, self._child, held))
            self._changed = threading.Condition()
            self._readers = [self._reader(self._child.stdout, lines), self._reader(self._child.stderr, said)]
            undone.pop_all()

    def _reader(self, stream: Optional[IO[str]], lines: Sink) -> threading.Thread:
        assert stream is not None
        thread = threading.Thread(target=_read, args=(stream, lines, self._changed), daemon=True)
        thread.start()
        return thread

    @property
    def status(self) -> Optional[int]:
        """The status of a process that has ended: negative for a signal. None while it runs. It is waited for once the lines have ended."""
        try:
            return self._child.poll() if self.writes else self._child.wait(STOP_LIMIT)
        except subprocess.TimeoutExpired:
            return None

    @property
    def writes(self) -> bool:
        """Whether more lines may come."""
        return self._readers[0].is_alive()

    def wait_until(self, holds: Callable[[], bool], timeout: float) -> bool:
        """Waits for what its lines tell. False once they have ended or the time is up, and it doesn't hold."""
        end = time.monotonic() + timeout
        with self._changed:
            while not holds():
                left = end - time.monotonic()
                if left <= 0 or not self.writes:
                    return holds()
                # The end of a reader is looked for, since it can't be notified.
                self._changed.wait(min(left, 0.05))
            return True

    def wait(self, timeout: float) -> int:
        """Waits until it ends and its lines are read. Raises `subprocess.TimeoutExpired`."""
        end = time.monotonic() + timeout
        # Its lines end with it. The end of a thread is noticed at once, and that of a process is looked for with pauses of up to 50 ms.
        self._readers[0].join(timeout)
        status = self._child.wait(max(0, end - time.monotonic()))
        for reader in self._readers:
            reader.join(STOP_LIMIT)
        return status

    def terminate(self) -> None:
        """Sends SIGTERM, if it still runs."""
        self._child.terminate()

    def kill(self) -> int:
        """Ends it by SIGKILL, which takes less time, and what it had still to print is lost. Returns its status."""
        self._kill()
        return self.wait(STOP_LIMIT)

    def stop(self) -> int:
        """Ends it by SIGTERM, and by SIGKILL if that takes too long. Returns its status."""
        try:
            self.terminate()
            self.wait(STOP_LIMIT)
        except subprocess.TimeoutExpired:
            pass
        finally:
            status = self.kill()
        return status


def _read(stream: IO[str], lines: Sink, changed: threading.Condition) -> None:
    with stream:
        for line in stream:
            with changed:
                lines.append(line.rstrip("\n"))
                changed.notify_all()


def _kill(child: "subprocess.Popen[str]", held: Optional[HeldInput] = None) -> None:
    child.kill()
    child.wait()
    if held is not None:
        held.close()


@contextlib.contextmanager
def signals_held() -> Iterator[None]:
    """Holds back signals until a child that is started is kept. `serve`, which looks for them itself, may begin with them blocked."""
    mask = signal.pthread_sigmask(signal.SIG_BLOCK, ENDING)
    try:
        yield
    finally:
        signal.pthread_sigmask(signal.SIG_SETMASK, mask)


def tied_to_parent() -> List[str]:
    """A command before a client's, with which the system kills the child when its parent dies. A `serve` ends by its input.

    The system takes the thread that started the child for its parent, so this is for the main thread alone.
    """
    setpriv = shutil.which("setpriv")
    if setpriv is None or threading.current_thread() is not threading.main_thread():
        return []
    return [setpriv, "--pdeathsig", "KILL", "--"]
