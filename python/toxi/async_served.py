"""`AsyncToxi`: a `Toxi` whose starting, waiting and ending are awaited."""
import asyncio
import time
from pathlib import Path
from types import TracebackType
from typing import Iterable, List, Optional, Type, Union

from .async_process import AsyncProcess, async_answer_of
from .base import HOLD_PAUSE, STREAMS, StrPath, ToxiBase
from .errors import ToxiError, error_of
from .lines import Link, Total
from .picks import PickedToxic, picked
from .printed_lines import VERBOSE, SaidLines
from .process import STOP_LIMIT, UNTIL_EOF
from .rules import Rule
from .runs import Run, names_of, written_page
from .seconds import seconds


class AsyncToxi(ToxiBase):
    """`Toxi` under asyncio: `async with AsyncToxi(..) as toxi`. Options, errors and warnings are those of `Toxi`, in the same units.

    What waits is awaited and blocks no other task; what only reads, such as `address` and `links`, is called as it is.
    """

    _process: Optional[AsyncProcess] = None

    async def __aenter__(self) -> "AsyncToxi":
        if not self._begun:
            await self.start()
        self._require_started()
        return self

    async def __aexit__(
        self, kind: Optional[Type[BaseException]], error: Optional[BaseException], trace: Optional[TracebackType]
    ) -> None:
        status = await self._running().settled_status()
        failed = not self._stopped and status not in (None, 0)
        await self.stop()
        if failed and kind is None:
            raise self._error(status)

    async def start(self) -> None:
        """Starts the program and waits until every enabled proxy listens. `async with` calls it unless it was started."""
        self._begin()
        try:
            await self._serve(await self._checked())
        except BaseException:
            await self.stop()
            raise

    async def stop(self) -> None:
        """Ends the program, as `Toxi.stop`."""
        self._stopped = True
        if self._process is not None:
            await self._process.stop()
        await asyncio.to_thread(self._clean_up)

    async def restart(self, rules: Union[str, Iterable[Rule], None] = None, seed: Optional[int] = None) -> None:
        """Serves other rules, or under another seed, at the same addresses, as `Toxi.restart`."""
        self._require_started()
        run = await self._checked(rules, seed)
        await self._end_run()
        await self._serve(run)

    async def down(self) -> None:
        """Takes the service down, as `Toxi.down`."""
        self._require_started()
        await self._end_run()

    async def up(self) -> None:
        """Takes the service up again, as `Toxi.up`."""
        self._require_started()
        if await self._running().settled_status() is not None:
            await self.restart()

    async def wait_for_link(self, proxy: str, number: int, timeout: float = 5) -> Link:
        """Waits until the connection of this number, from 1, has ended, for at most `timeout` seconds. Raises as `Toxi.wait_for_link`."""
        await self._running().wait_until(lambda: self._found_link(proxy, number) is not None, seconds("timeout", timeout))
        link = self._found_link(proxy, number)
        if link is None:
            raise self._no_link(proxy, number, timeout, self._running().writes)
        return link

    async def wait(self, timeout: float = 10) -> List[Total]:
        """Waits until the program ends by itself, which it does with `links`, for at most `timeout` seconds. Returns its totals."""
        try:
            await self._running().wait(seconds("timeout", timeout))
        except asyncio.TimeoutError:
            raise self._no_end(timeout) from None
        return self.totals()

    async def pick(self, proxy: str, number: int, stream: Optional[str] = None) -> List[PickedToxic]:
        """The toxics of the connection of this number, from 1, applied or not, on both streams or on one."""
        toxics: List[PickedToxic] = []
        for each in STREAMS if stream is None else (stream,):
            answer = await async_answer_of(self._run.pick_command(proxy, number, each))
            if answer.status != 0:
                raise error_of(answer.faults, answer.status, self._run.rules)
            toxics += picked(each, answer.printed)
        return toxics

    async def page(self, path: Optional[StrPath] = None, title: Optional[str] = None) -> Path:
        """Writes the page of its logs so far, as `Toxi.page`."""
        target = self._run.page_path() if path is None else Path(path)
        answer = await async_answer_of(self._run.report_command(title), names_of(await asyncio.to_thread(self._run.logs)))
        return await asyncio.to_thread(written_page, answer, target)

    def _running(self) -> AsyncProcess:
        if self._process is None:
            raise ToxiError("it wasn't started")
        return self._process

    async def _checked(self, rules: Union[str, Iterable[Rule], None] = None, seed: Optional[int] = None) -> Run:
        """The next run, whose rules were checked. The program's version may be asked and files are written, so a thread does it."""
        run = await asyncio.to_thread(self._new_run, rules, seed)
        try:
            self._judge(run, await async_answer_of(run.check_command(), timeout=self._start_timeout))
        except TimeoutError:
            raise self._late() from None
        return run

    async def _serve(self, run: Run) -> None:
        self._serving(run)
        self._process = process = await AsyncProcess.started([*run.serve_command(), UNTIL_EOF, VERBOSE], self._printed, SaidLines(run.said))
        if await process.wait_until(self._listens, self._start_timeout):
            self._addresses = run.listening()
            return
        late = process.writes
        # Without an enabled proxy it ends at once.
        if late or await process.wait(self._start_timeout) != 0 or self._enabled():
            status = await process.stop()
            raise self._late() if late else self._error(status)

    async def _end_run(self) -> None:
        """Ends the program, and takes its ports as soon as it stops listening."""
        process = self._running()
        status = await process.settled_status()
        if status not in (None, 0):
            raise self._error(status)
        process.terminate()
        end = time.monotonic() + STOP_LIMIT
        while not self._hold() and process.status is None and time.monotonic() < end:
            await asyncio.sleep(HOLD_PAUSE)
        await process.stop()
        self._require_held()
