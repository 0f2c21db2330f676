"""`Toxi`: a `toxi serve` process in front of the services of a test."""
import asyncio
import subprocess
import time
from pathlib import Path
from types import TracebackType
from typing import Iterable, List, Optional, Type, Union

from .base import HOLD_PAUSE, STREAMS, StrPath, ToxiBase
from .commands import answer_of
from .errors import ToxiError, error_of
from .lines import Link, Total
from .picks import PickedToxic, picked
from .printed_lines import VERBOSE, SaidLines
from .process import STOP_LIMIT, UNTIL_EOF, Process
from .rules import Rule
from .runs import Position, Run, names_of, written_page
from .seconds import seconds


class Toxi(ToxiBase):
    """Starts `toxi serve` and ends it with the `with` statement, whatever happens in between.

    `proxies` maps names to upstreams such as `127.0.0.1:8080`, or has `Proxy` objects, or is the text of a populate
    file. `rules` has `Rule` objects or is the text of a script. The same seed makes the connection of a number meet the
    same toxics with the same draws.

    `program` is the path of the program, else `$TOXI`, else the package's own, else `toxi` on the PATH; where it isn't given, the
    program must be of this package's version. The files are written into `directory`,
    or into a new one that goes away at the end. `links`, `workers` and `connect_timeout` (milliseconds, or a `timedelta`) are the
    options of `serve`. With `log` each stream of each link is logged in that folder, which is made or must be empty. The program has
    `start_timeout` seconds until it listens: a clone's ./toxi compiles itself first.

    Raises `ToxiFault` at the start where the program refuses its files, and `ToxiError` where a rule is for a proxy that isn't
    there. Rules and toxics without effect are `ToxiWarning`s.
    """

    _process: Optional[Process] = None

    def __enter__(self) -> "Toxi":
        if not self._begun:
            self.start()
        self._require_started()
        return self

    def __exit__(
        self, kind: Optional[Type[BaseException]], error: Optional[BaseException], trace: Optional[TracebackType]
    ) -> None:
        status = self._running().status
        failed = not self._stopped and status not in (None, 0)
        self.stop()
        if failed and kind is None:
            raise self._error(status)

    def start(self) -> None:
        """Starts the program and waits until every enabled proxy listens. `with` calls it unless it was started."""
        self._begin()
        try:
            self._serve(self._checked(self._new_run()))
        except BaseException:
            self.stop()
            raise

    def stop(self) -> None:
        """Ends the program, and gives its ports up. Links that still live are broken, and have their lines. A second call does nothing."""
        self._stopped = True
        if self._process is not None:
            self._process.stop()
        self._clean_up()

    def restart(self, rules: Union[str, Iterable[Rule], None] = None, seed: Optional[int] = None) -> None:
        """Serves other rules, or under another seed, at the same addresses. Links that live are broken, and the next is number 1.

        What isn't given stays. Its files and logs have the number of the run in their names. Rules that are wrong raise what they raise
        at the start, and what runs goes on.
        """
        self._require_started()
        run = self._checked(self._new_run(rules, seed))
        self._end_run()
        self._serve(run)

    def down(self) -> None:
        """Takes the service down: links that live are broken, and connects are refused. The ports stay its own. A second call does nothing."""
        self._require_started()
        self._end_run()

    def up(self) -> None:
        """Takes the service up again, at the same addresses under the same rules and seed. The next link is number 1. If it is up, nothing is done."""
        self._require_started()
        if self._running().status is not None:
            self.restart()

    def wait_for_link(self, proxy: str, number: int, timeout: float = 5) -> Link:
        """Waits until the connection of this number, from 1, has ended, for at most `timeout` seconds.

        It holds up its thread: on a loop of asyncio `await asyncio.to_thread(toxi.wait_for_link, ..)`.
        Raises `TimeoutError`, or `ToxiEnded` if it can't come, or `KeyError` for a proxy that isn't there.
        """
        self._running().wait_until(lambda: self._found_link(proxy, number) is not None, seconds("timeout", timeout))
        link = self._found_link(proxy, number)
        if link is None:
            raise self._no_link(proxy, number, timeout, self._running().writes, _held_loop())
        return link

    def wait(self, timeout: float = 10) -> List[Total]:
        """Waits until the program ends by itself, which it does with `links`, for at most `timeout` seconds. Returns its totals."""
        try:
            self._running().wait(seconds("timeout", timeout))
        except subprocess.TimeoutExpired:
            raise self._no_end(timeout) from None
        return self.totals()

    def pick(self, proxy: str, number: int, stream: Optional[str] = None) -> List[PickedToxic]:
        """The toxics of the connection of this number, from 1, applied or not, on both streams or on one."""
        toxics: List[PickedToxic] = []
        for each in STREAMS if stream is None else (stream,):
            answer = answer_of(self._run.pick_command(proxy, number, each))
            if answer.status != 0:
                raise error_of(answer.faults, answer.status, self._run.rules)
            toxics += picked(each, answer.printed)
        return toxics

    def page(self, path: Optional[StrPath] = None, title: Optional[str] = None) -> Path:
        """Writes the page of its logs so far, as `toxi report` prints it, and returns where: `report.html` beside the logs, unless told.

        Its title is the id of the test that pytest runs, unless told.
        """
        return page_of(self._run, path, title=title)

    def _running(self) -> Process:
        if self._process is None:
            raise ToxiError("it wasn't started")
        return self._process

    def _checked(self, run: Run) -> Run:
        """A run whose rules were checked."""
        try:
            self._judge(run, answer_of(run.check_command(), timeout=self._start_timeout))
        except TimeoutError:
            raise self._late() from None
        return run

    def _serve(self, run: Run) -> None:
        self._serving(run)
        self._process = process = Process([*run.serve_command(), UNTIL_EOF, VERBOSE], self._printed, SaidLines(run.said))
        if process.wait_until(self._listens, self._start_timeout):
            self._addresses = run.listening()
            return
        late = process.writes
        # Without an enabled proxy it ends at once.
        if late or process.wait(self._start_timeout) != 0 or self._enabled():
            status = process.stop()
            raise self._late() if late else self._error(status)

    def _end_run(self) -> None:
        """Ends the program, and takes its ports as soon as it stops listening."""
        process = self._running()
        if process.status not in (None, 0):
            raise self._error(process.status)
        process.terminate()
        end = time.monotonic() + STOP_LIMIT
        while not self._hold() and process.status is None and time.monotonic() < end:
            time.sleep(HOLD_PAUSE)
        process.stop()
        self._require_held()


def _held_loop() -> str:
    """What is to be said of a wait that held up the loop of asyncio that it was called on. Empty where there is none."""
    try:
        asyncio.get_running_loop()
    except RuntimeError:
        return ""
    return "; the wait held up the loop of asyncio that it was called on, and each client there: await asyncio.to_thread(toxi.wait_for_link, ..)"


def page_of(run: Run, path: Optional[StrPath] = None, since: Position = Position(), title: Optional[str] = None) -> Path:
    """Writes the page of a run's logs, but for those of links that had ended at a position. Returns where."""
    target = run.page_path() if path is None else Path(path)
    return written_page(answer_of(run.report_command(title), names_of(run.logs(since))), target)
