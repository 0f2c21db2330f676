"""A command that stays for many runs of a client: each run is a line on its standard input, and its answer a line of its standard output."""
import contextlib
import json
import os
import re
import shlex
import signal
import subprocess
import sys
import tempfile
import threading
from dataclasses import dataclass, field
from typing import IO, Callable, Iterator, List, Mapping, Optional, Sequence

from .outcomes import Addresses, StartedRun, Startable
from .process import tied_to_parent
from .shell_client import SIGNALLED, TERM_LIMIT, Output, Status, groups_of, last_line, require_command

ANSWER = re.compile(rb"toxi-answer (\d+) (\d+)\n?")
# What a process has whose status is 0, and which has left a run without an answer.
UNANSWERED = 1
# How long a process may take to end once its input has ended, in seconds.
CLOSE_LIMIT = 2.0
GiveBack = Callable[["_Process"], None]


def request_of(number: int, addresses: Mapping[str, object]) -> str:
    """The line that asks for a run: its number, and the addresses of its proxies."""
    return json.dumps({"run": number, "proxies": {name: str(address) for name, address in addresses.items()}}, ensure_ascii=False) + "\n"


def direct_request(upstreams: Mapping[str, str], command: Sequence[str]) -> str:
    """The command of a shell that asks a command for a run at its upstreams, without a proxy."""
    return f"printf '%s\\n' {shlex.quote(request_of(1, upstreams).rstrip())} | {shlex.join(command)}"


@dataclass(frozen=True)
class PersistentClient(Startable):
    """Keeps the processes of `command`: as many as run at once. A run is a line of JSON on the standard input of one,
    `{"run": 1, "proxies": {"shop": "127.0.0.1:4"}}`, and its answer a line `toxi-answer 1 STATUS`, which gives its `Status`.

    What a process prints beside that goes to `output`, as the outputs of a `ShellClient` do. One that hangs is ended, and so is one that ends by itself: the
    next run starts another. `close` ends those that are left.
    """

    command: Sequence[str]
    output: Output = subprocess.DEVNULL
    _idle: List["_Process"] = field(default_factory=list, compare=False)
    _lock: threading.Lock = field(default_factory=threading.Lock, compare=False)
    _fresh: List[None] = field(default_factory=list, compare=False)
    _closing: List[threading.Thread] = field(default_factory=list, compare=False)

    def start(self, addresses: Addresses) -> StartedRun:
        """Asks a process for a run. Raises `ToxiError` where none can be started."""
        require_command(self.command)
        with self._lock:
            self._idle[:] = [process for process in self._idle if not process.is_over]
            taken = self._idle.pop() if self._idle and not self._fresh else None
        process = _Process(self.command, self.output) if taken is None else taken
        return process.asked(addresses, self._give_back)

    def _give_back(self, process: "_Process") -> None:
        """Called by the thread that reads the process, which can't wait for its end."""
        closing = threading.Thread(target=process.close, name="toxi closing", daemon=True)
        with self._lock:
            if not self._fresh:
                self._idle.append(process)
                return
            self._closing[:] = [*filter(threading.Thread.is_alive, self._closing), closing]
            closing.start()

    @contextlib.contextmanager
    def fresh(self) -> Iterator[None]:
        """Within it each run has a process of its own."""
        with self._lock:
            self._fresh.append(None)
        try:
            yield
        finally:
            with self._lock:
                self._fresh.pop()

    def close(self) -> None:
        """Ends the processes that are left."""
        with self._lock:
            left, closing = list(self._idle), list(self._closing)
            self._idle.clear()
        for process in left:
            process.close()
        for thread in closing:
            thread.join()


class _AskedRun(StartedRun):
    """A run that a process was asked for."""

    def __init__(self, process: "_Process") -> None:
        super().__init__()
        self._process = process

    def end(self) -> None:
        """Ends the process."""
        self._process.end()


class _Process:
    """A process of the command, read by a thread. It has one run at a time."""

    def __init__(self, command: Sequence[str], output: Output) -> None:
        self._said: IO[bytes] = tempfile.TemporaryFile()
        self._passes_on = output is None
        self._child = subprocess.Popen(
            [*tied_to_parent(), *command],
            stdin=subprocess.PIPE,
            stdout=subprocess.PIPE,
            stderr=self._said if output == subprocess.DEVNULL else output,
            start_new_session=True,
        )
        assert self._child.stdin is not None
        self._input = self._child.stdin
        self._lock = threading.Lock()
        self._number = 0
        self._said_before = 0
        self._run: Optional[_AskedRun] = None
        self._give_back: GiveBack = lambda process: None
        self._is_ended = False
        self.is_over = False
        self._reader = threading.Thread(target=self._read, name="toxi persistent command", daemon=True)
        self._reader.start()

    def asked(self, addresses: Addresses, give_back: GiveBack) -> StartedRun:
        """Asks for a run. One that has ended meanwhile answers by its status."""
        run = _AskedRun(self)
        with self._lock:
            if self.is_over:
                run.settle(Status(self._status()))
                return run
            self._number += 1
            self._said_before = self._said.seek(0, os.SEEK_END)
            self._run, self._give_back = run, give_back
            request = request_of(self._number, addresses).encode()
        with contextlib.suppress(BrokenPipeError, ValueError):
            self._input.write(request)
            self._input.flush()
        return run

    def _read(self) -> None:
        assert self._child.stdout is not None
        with self._child.stdout as printed:
            for line in printed:
                self._take(line)
        # Not reaped yet, so that no other process can have its number while what it left is ended.
        os.waitid(os.P_PID, self._child.pid, os.WEXITED | os.WNOWAIT)
        self._signal(signal.SIGKILL)
        self._child.wait()
        with self._lock:
            self.is_over = True
        self._settle(self._status())
        self._said.close()
        self._close_input()

    def _close_input(self) -> None:
        with contextlib.suppress(BrokenPipeError):
            self._input.close()

    def _take(self, line: bytes) -> None:
        found = ANSWER.fullmatch(line)
        if found is not None and int(found[1]) == self._number:
            self._settle(int(found[2]))
        elif self._passes_on:
            sys.stdout.buffer.write(line)
            sys.stdout.buffer.flush()

    def _status(self) -> int:
        status = self._child.wait()
        return SIGNALLED - status if status < 0 else status or UNANSWERED

    def _settle(self, status: int) -> None:
        """The answer of the run, if it waits for one. The process is given back before, so that the next run finds it."""
        with self._lock:
            run, self._run = self._run, None
        if run is None:
            return
        answer = Status(status)
        answer.said = last_line(self._said, self._said_before) if status else ""
        if not (self.is_over or self._is_ended):
            self._give_back(self)
        run.settle(answer)

    def close(self) -> None:
        """Ends its input, and what doesn't end by that."""
        self._close_input()
        self._reader.join(CLOSE_LIMIT)
        if self._reader.is_alive():
            self.end()
            self._reader.join()

    def end(self) -> None:
        """Ends the processes of its session by SIGTERM, and by SIGKILL if that takes too long."""
        self._is_ended = True
        self._signal(signal.SIGTERM)
        self._reader.join(TERM_LIMIT)
        if self._reader.is_alive():
            self._signal(signal.SIGKILL)

    def _signal(self, number: int) -> None:
        for group in {self._child.pid, *(groups_of(self._child.pid) if self._is_ended else ())}:
            with contextlib.suppress(ProcessLookupError):
                os.killpg(group, number)
