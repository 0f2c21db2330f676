"""A child process under asyncio that is read line by line and never outlives the tests."""
import asyncio
import os
import signal
import subprocess
import weakref
from typing import Any, Callable, Coroutine, Optional, Sequence

from .commands import ERRORS, Answer, unstartable
from .held_input import HeldInput
from .printed_lines import Sink
from .process import STOP_LIMIT
from .program import environment


class AsyncProcess:
    """A running program, read by tasks. Its lines go to `lines`, and those of standard error to `said`."""

    def __init__(self, child: asyncio.subprocess.Process, held: HeldInput, lines: Sink, said: Sink) -> None:
        self._child = child
        # Runs at the interpreter's exit too.
        self._kill = weakref.finalize(self, _kill, child, held)
        self._changed = asyncio.Condition()
        self._readers = [asyncio.ensure_future(self._read(*each)) for each in ((child.stdout, lines), (child.stderr, said))]

    @classmethod
    async def started(cls, command: Sequence[str], lines: Sink, said: Sink) -> "AsyncProcess":
        """Starts a command, whose input ends with this process."""
        held = HeldInput()
        with held.lent() as reading:
            child = await _start(command, reading)
        return cls(child, held, lines, said)

    async def _read(self, stream: Optional[asyncio.StreamReader], lines: Sink) -> None:
        assert stream is not None
        async for line in stream:
            lines.append(line.decode(errors="replace").rstrip("\n"))
            await self._notify()
        await self._notify()

    async def _notify(self) -> None:
        async with self._changed:
            self._changed.notify_all()

    @property
    def status(self) -> Optional[int]:
        """The status of a process that has ended: negative for a signal. None while it runs, and a moment longer."""
        return self._child.returncode

    async def settled_status(self) -> Optional[int]:
        """As `status`, but waited for once the lines have ended."""
        if not self.writes:
            await self.wait(STOP_LIMIT)
        return self.status

    @property
    def writes(self) -> bool:
        """Whether more lines may come."""
        stream = self._child.stdout
        return stream is not None and not stream.at_eof()

    async def wait_until(self, holds: Callable[[], bool], timeout: float) -> bool:
        """Waits for what its lines tell, for `timeout` seconds. False once they have ended or the time is up, and it doesn't hold."""
        try:
            await asyncio.wait_for(self._until(lambda: holds() or not self.writes), timeout)
        except asyncio.TimeoutError:
            pass
        return holds()

    async def _until(self, holds: Callable[[], bool]) -> None:
        async with self._changed:
            await self._changed.wait_for(holds)

    async def wait(self, timeout: float) -> int:
        """Waits until it ends and its lines are read, for `timeout` seconds. Raises `asyncio.TimeoutError`."""
        status = await asyncio.wait_for(self._child.wait(), timeout)
        await asyncio.wait(self._readers, timeout=STOP_LIMIT)
        return status

    def terminate(self) -> None:
        """Sends SIGTERM, if it still runs."""
        _send(self._child, signal.SIGTERM)

    async def stop(self) -> int:
        """Ends it by SIGTERM, and by SIGKILL if that takes too long. Returns its status."""
        try:
            self.terminate()
            await self.wait(STOP_LIMIT)
        except asyncio.TimeoutError:
            pass
        finally:
            self._kill()
        return await self.wait(STOP_LIMIT)


def _kill(child: asyncio.subprocess.Process, held: HeldInput) -> None:
    _send(child, signal.SIGKILL)
    held.close()


def _send(child: asyncio.subprocess.Process, number: int) -> None:
    """Sends a signal to a child that still runs. asyncio's own call may take the child's status from the one that waits for it."""
    if child.returncode is None:
        try:
            os.kill(child.pid, number)
        except ProcessLookupError:
            pass


def _start(command: Sequence[str], given: int) -> Coroutine[Any, Any, asyncio.subprocess.Process]:
    """Starts a command with pipes, and `given` as the standard input."""
    return asyncio.create_subprocess_exec(*command, stdin=given, stdout=subprocess.PIPE, stderr=subprocess.PIPE, env=environment())


async def async_answer_of(command: Sequence[str], given: str = "", timeout: Optional[float] = None) -> Answer:
    """As `answer_of`."""
    try:
        child = await _start(command, subprocess.PIPE)
    except OSError as error:
        raise unstartable(command, error) from None
    try:
        printed, said = await asyncio.wait_for(child.communicate(given.encode(errors=ERRORS)), timeout)
    except asyncio.TimeoutError:
        raise TimeoutError(f"{command[0]} didn't answer within {timeout} s") from None
    finally:
        _send(child, signal.SIGKILL)
    return Answer(await child.wait(), printed.decode(errors=ERRORS), said.decode(errors=ERRORS))
