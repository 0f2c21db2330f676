"""What `Toxi` and `AsyncToxi` share: all that neither starts, nor waits, nor ends something."""
import os
import tempfile
from pathlib import Path
from typing import Dict, Iterable, List, Optional, Tuple, Union

from .checks import judge_findings
from .commands import Answer
from .connect_timeouts import ConnectTimeout, milliseconds
from .errors import ToxiEnded, ToxiError, error_of
from .lines import Address, Link, Total, printed
from .places import kept_rules
from .ports import HeldPorts
from .printed_lines import PrintedLines
from .program import found_program, startable
from .proxies import Proxies, enabled_by_name, enabled_names, listening_at, populate_text
from .rules import Rule
from .runs import Position, Run
from .seconds import seconds
from .seeds import checked_seed
from .toxics import Stream

StrPath = Union[str, "os.PathLike[str]"]
STREAMS: Tuple[Stream, Stream] = ("upstream", "downstream")
# A clone's ./toxi compiles itself first. In seconds.
START_LIMIT = 300.0
# Between two looks whether the program has stopped listening, in seconds.
HOLD_PAUSE = 0.001


class ToxiBase:
    """The proxies, rules and options of a `Toxi`, and what its program has printed."""

    def __init__(
        self,
        proxies: Proxies,
        rules: Union[str, Iterable[Rule]] = (),
        *,
        seed: int = 1,
        program: Optional[StrPath] = None,
        directory: Optional[StrPath] = None,
        links: Optional[int] = None,
        workers: Optional[int] = None,
        connect_timeout: ConnectTimeout = None,
        log: Optional[StrPath] = None,
        start_timeout: float = START_LIMIT,
    ) -> None:
        self._populate = populate_text(proxies)
        self._rules = kept_rules(rules)
        self._seed = checked_seed(seed)
        self._program = program
        self._directory = None if directory is None else Path(directory)
        self._own_directory: Optional["tempfile.TemporaryDirectory[str]"] = None
        self._start_timeout = seconds("start_timeout", start_timeout)
        self._log = None if log is None else Path(log)
        numbers = (("--links", links), ("--workers", workers), ("--connect-timeout", milliseconds(connect_timeout)))
        self._options = [word for option, value in numbers if value is not None for word in (option, str(value))]
        self._runs: List[Run] = []
        self._printed = PrintedLines([])
        self._addresses: Dict[str, Address] = {}
        self._held = HeldPorts()
        self._begun = False
        self._stopped = False

    @property
    def seed(self) -> int:
        """The seed of the run that is served."""
        return self._seed

    @property
    def stopped(self) -> bool:
        """Whether `stop` was called, or its `with` statement has ended."""
        return self._stopped

    @property
    def command(self) -> List[str]:
        """The command that serves, with its files in the directory."""
        return self._run.serve_command()

    def address(self, proxy: Optional[str] = None) -> Address:
        """Where a proxy listens, as a pair of host and port; as a text it is `host:port`. The name may be left out where one proxy listens.

        Raises `KeyError` for a proxy that doesn't listen.
        """
        self._run
        if proxy is None and len(self._addresses) == 1:
            return next(iter(self._addresses.values()))
        if proxy is None:
            raise KeyError(f"name one of these proxies: {_listed(self._addresses)}")
        return self._addresses[self._known(proxy, self._addresses)]

    def url(self, proxy: Optional[str] = None) -> str:
        """`http://host:port` of a proxy, which is named as for `address`."""
        return f"http://{self.address(proxy)}"

    def lines(self) -> List[str]:
        """The lines of the program so far, as it printed them. A restart begins anew."""
        return list(self._run.lines)

    def links(self, proxy: Optional[str] = None) -> List[Link]:
        """The links that have ended so far, or those of a proxy, in the order of their ends. Raises `KeyError` for a proxy that isn't there."""
        links = self._run.parsed(Link)
        if proxy is None:
            return links
        name = self._known(proxy, map(printed, enabled_by_name(self._populate)))
        return [link for link in links if link.proxy == name]

    def totals(self) -> List[Total]:
        """The totals of the proxies that have ended."""
        return self._run.parsed(Total)

    def logs(self) -> List[Path]:
        """The log of each stream of a link so far, which `toxi replay` judges. None without `log`."""
        return self._run.logs()

    @property
    def runs(self) -> Tuple[Run, ...]:
        """The starts of the program so far, the present one last."""
        return tuple(self._runs)

    def report(self, since: Position = Position()) -> str:
        """What a person needs after a failed test, of each run: the seed, the command, the line of each link, and how its logs are judged.

        With `since`, the `position()` of one of the `runs`, what came before is left out.
        """
        return "\n".join(run.report(since) for run in self._runs[since.run - 1 :])

    @property
    def _run(self) -> Run:
        if not self._runs:
            raise ToxiError("it wasn't started")
        return self._runs[-1]

    def _known(self, proxy: str, names: Iterable[str]) -> str:
        known = list(names)
        if printed(proxy) not in known:
            raise KeyError(f"no proxy {proxy!r}; there are {_listed(known)}")
        return printed(proxy)

    def _found_link(self, proxy: str, number: int) -> Optional[Link]:
        return next((link for link in self.links(proxy) if link.number == number), None)

    def _no_link(self, proxy: str, number: int, timeout: float, writes: bool, hint: str = "") -> Exception:
        what = f"link {number} of {proxy}; its lines are {self.lines()!r}{hint}"
        if not writes:
            return ToxiEnded(f"toxi has ended without {what}")
        return TimeoutError(f"not within {timeout} s: {what}; {self._state(proxy, number)}")

    def _state(self, proxy: str, number: int) -> str:
        """Why a link has no line yet."""
        seconds_open = self._printed.open_for(proxy, number)
        if seconds_open is not None:
            return f"link {number} is open since {seconds_open:.1f} s: close the client's connection"
        return "no connection yet" if number == 1 else f"no connection {number} yet"

    def _no_end(self, timeout: float) -> TimeoutError:
        return TimeoutError(f"toxi didn't end within {timeout} s; its lines are {self.lines()!r}")

    def _late(self) -> ToxiError:
        return ToxiError(f"toxi doesn't listen within {self._start_timeout} s")

    def _begin(self) -> None:
        if self._begun:
            raise ToxiError("it was started before")
        self._begun = True

    def _require_started(self) -> None:
        self._run
        if self._stopped:
            raise ToxiError("it was stopped")

    def _enabled(self) -> List[str]:
        return enabled_names(self._populate)

    def _listens(self) -> bool:
        return len(self._run.listening()) >= max(len(self._enabled()), 1)

    def _new_run(self, rules: Union[str, Iterable[Rule], None] = None, seed: Optional[int] = None) -> Run:
        """The next run with its files, where what isn't given is that of the present one."""
        given = self._rules if rules is None else kept_rules(rules)
        program = found_program() if self._program is None else startable(os.fspath(self._program))
        if self._directory is None:
            self._own_directory = tempfile.TemporaryDirectory(prefix="toxi-")
            self._directory = Path(self._own_directory.name)
        number = len(self._runs) + 1
        populate = listening_at(self._populate, self._addresses)
        run = Run(number, program, populate, given, self._seed if seed is None else checked_seed(seed), self._directory, self._log, self._options)
        run.write_files()
        return run

    def _judge(self, run: Run, answer: Answer) -> None:
        """Raises what is wrong with the rules of a run, and warns of what has no effect."""
        if answer.status != 0:
            raise error_of(answer.faults, answer.status, run.rules)
        judge_findings(answer.lines, run.rules)

    def _serving(self, run: Run) -> None:
        """Notes that this run is the present one."""
        self._runs.append(run)
        self._printed = PrintedLines(run.lines)
        self._rules, self._seed = run.rules, run.seed
        self._held.lend()

    def _error(self, status: Optional[int]) -> ToxiError:
        return error_of(self._run.said, status, self._run.rules)

    def _hold(self) -> bool:
        return self._held.hold(self._addresses.values())

    def _require_held(self) -> None:
        if not self._hold():
            raise ToxiError(f"another process has taken a port of {', '.join(map(str, self._addresses.values()))}")

    def _clean_up(self) -> None:
        self._held.release()
        if self._own_directory is not None:
            self._own_directory.cleanup()


def _listed(names: Iterable[str]) -> str:
    return ", ".join(map(repr, names)) or "none"
