"""Runs of a client that have been started: a function in a thread, which may call it again for a later run."""
import asyncio
import contextlib
import contextvars
import inspect
import os
import sys
import threading
from abc import ABC, abstractmethod
from collections import deque
from types import FrameType, TracebackType
from typing import Any, Callable, ContextManager, Coroutine, Deque, List, Mapping, Optional, Tuple

from ..checks import PACKAGE
from ..lines import Address

Addresses = Mapping[str, Address]
Client = Callable[[Addresses], Any]
# A file, a line of it, and the name of the function there.
Place = Tuple[str, int, str]
# Frames of these folders stand above the client's own in a traceback.
ABOVE = (PACKAGE, os.path.dirname(asyncio.__file__) + os.sep)


class StartedRun(ABC):
    """A run of a client that was started. Once it has ended it has an `answer`, or an `error`."""

    answer: Any = None
    error: Optional[BaseException] = None

    def __init__(self) -> None:
        # A lock costs a tenth of what a future does.
        self._ended = threading.Lock()
        self._ended.acquire()

    def settle(self, answer: Any = None, error: Optional[BaseException] = None) -> None:
        """It has ended. Called once."""
        self.answer, self.error = answer, error
        self._ended.release()

    def wait(self, seconds: float) -> bool:
        """Whether it ends within so many seconds."""
        if not self._ended.acquire(timeout=min(max(seconds, 0), threading.TIMEOUT_MAX)):
            return False
        self._ended.release()
        return True

    @abstractmethod
    def end(self) -> None:
        """Ends it, as far as that can be done from outside. Called at most once, and not after it has returned."""

    def frames(self) -> Tuple[Place, ...]:
        """Where it is now, the innermost last. Empty where that can't be seen from here."""
        return ()


class Startable(ABC):
    """A client that is no function: it starts its runs itself, several at once too."""

    @abstractmethod
    def start(self, addresses: Addresses) -> StartedRun:
        """Starts one with the addresses of its proxies."""

    def fresh(self) -> ContextManager[None]:
        """Within it no run has a process that has had another run."""
        return contextlib.nullcontext()

    def close(self) -> None:
        """Ends what is kept between runs."""


class FunctionClient(Startable):
    """A function, or a coroutine function in a loop of its own, called by threads. Where it `shares` threads, one that is idle takes the next call.

    A thread costs as much processor time as a small client. `close` ends those that are idle.
    """

    def __init__(self, client: Client, shares: bool = False) -> None:
        self._client = client
        self._shares = shares
        self._idle: Deque[_Thread] = deque()

    def start(self, addresses: Addresses) -> StartedRun:
        """Calls it in a thread."""
        call = _CalledRun(self._client, addresses)
        try:
            thread = self._idle.pop()
        except IndexError:
            thread = _Thread(self._idle.append if self._shares else None)
        thread.give(call)
        return call

    def close(self) -> None:
        """Ends the threads that are idle."""
        while self._idle:
            self._idle.pop().give(None)


class _Thread:
    """A thread that waits for calls. `idle` is called with it when a call has returned, just before that is known. Without it the first call is the last."""

    def __init__(self, idle: Optional[Callable[["_Thread"], object]]) -> None:
        self._idle = idle
        self._given = threading.Lock()
        self._given.acquire()
        self._call: Optional[_CalledRun] = None
        # A daemon: a client that never returns mustn't keep the interpreter.
        threading.Thread(target=self._run, name="toxi client", daemon=True).start()

    def give(self, call: "Optional[_CalledRun]") -> None:
        """The next call, or None to end. It is given to a thread that is idle."""
        self._call = call
        self._given.release()

    def _run(self) -> None:
        while True:
            self._given.acquire()
            call, self._call = self._call, None
            if call is None:
                return
            call.run()
            if self._idle is not None:
                self._idle(self)
            call.tell()
            if self._idle is None:
                return
            # Else it would keep the answer alive until the next call.
            del call


class _CalledRun(StartedRun):
    """A call of a function."""

    def __init__(self, client: Client, addresses: Addresses) -> None:
        super().__init__()
        self._client, self._addresses = client, addresses
        self._cancel: Callable[[], object] = _nothing
        self._coroutine: Optional[Coroutine[Any, Any, Any]] = None
        self._thread = 0
        self._came: Tuple[Any, Optional[BaseException]] = None, None

    def run(self) -> None:
        """Calls it, with no context of an earlier call."""
        self._thread = threading.get_ident()
        try:
            self._came = contextvars.Context().run(run_here, self._client, self._addresses, self._awaited), None
        except BaseException as error:
            self._came = None, error.with_traceback(_of_client(error.__traceback__))

    def tell(self) -> None:
        """Tells what came of it."""
        came, self._came = self._came, (None, None)
        self.settle(*came)

    async def _awaited(self, coroutine: Coroutine[Any, Any, Any]) -> Any:
        loop, task = asyncio.get_running_loop(), asyncio.current_task()
        assert task is not None
        cancel, self._coroutine = task.cancel, coroutine
        self._cancel = lambda: loop.call_soon_threadsafe(cancel)
        return await coroutine

    def frames(self) -> Tuple[Place, ...]:
        """Those of its thread, or of the coroutines that wait for each other."""
        found: List[Place] = []
        waiting: Any = self._coroutine
        if waiting is None:
            frame: Optional[FrameType] = sys._current_frames().get(self._thread)
            while frame is not None:
                found.insert(0, _place(frame))
                frame = frame.f_back
        while getattr(waiting, "cr_frame", None) is not None:
            found.append(_place(waiting.cr_frame))
            waiting = waiting.cr_await
        return tuple(found)

    def end(self) -> None:
        """Cancels a coroutine. A thread can't be ended: its links are broken."""
        try:
            self._cancel()
        except RuntimeError:
            # The loop has just been closed.
            pass


def _nothing() -> None:
    """A function can't be cancelled."""


async def _simply_awaited(coroutine: Coroutine[Any, Any, Any]) -> Any:
    return await coroutine


def run_here(client: Client, addresses: Addresses, awaited: Callable[[Coroutine[Any, Any, Any]], Coroutine[Any, Any, Any]] = _simply_awaited) -> Any:
    """The answer of a function, or of a coroutine function in a loop of its own."""
    answer = client(addresses)
    return asyncio.run(awaited(answer)) if inspect.iscoroutine(answer) else answer


def _place(frame: FrameType) -> Place:
    return frame.f_code.co_filename, frame.f_lineno, frame.f_code.co_name


def _of_client(trace: Optional[TracebackType]) -> Optional[TracebackType]:
    """A traceback from the client's first frame on."""
    while trace is not None and trace.tb_frame.f_code.co_filename.startswith(ABOVE):
        trace = trace.tb_next
    return trace
