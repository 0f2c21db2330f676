"""`Search`: a client and its services, to be searched for faults, swept, or run again."""
import contextlib
import functools
import os
import warnings
from dataclasses import dataclass
from pathlib import Path
from typing import Any, Callable, Dict, Iterable, Mapping, Optional, Sequence, Union

from ..base import StrPath
from ..batches import ClientSetup
from ..client_source import FunctionSource
from ..errors import ToxiWarning
from ..fault_points import DELAYS, FAULTS
from ..outcomes import SETTLED_WITHIN, WITHIN, Allowed, Check, Client, Eventually, Startable, judge_of
from ..sweep_table import Sweep
from .about import SEARCH, SWEEP, About, plain
from .drawing import DrawnFaults
from .engine import Engine
from .isolated import Isolated
from .memory import Memory
from .pool import Executors, Pool
from .presets import allowed_classes
from .progress import python_line, python_progress
from .result import SearchResult
from .searching import SearchLimits, Watch

LIMITS: SearchLimits = SearchLimits()


@dataclass(frozen=True)
class Search:
    """A client and how its runs are judged.

    `upstreams` maps names to upstreams such as `127.0.0.1:8080`, and `client` is called with a mapping from these names to the addresses of the proxies
    before them. It may be a coroutine function. With `isolated` it is a function of a module, or `module:function`, and each run has a process of its own. A
    run is wrong if its answer isn't the one without a fault, or `check` doesn't return a true value for it; if it raises what isn't of the classes
    `allowed`, or of a preset: `"http"`, `"redis"`, `"postgres"`, `"any"`; or if it takes more than `within` seconds beside what its faults delay. A check that needs two
    arguments gets the run too: links, script, seconds. `eventually` is asked of the run each 50 ms until it is true, at most `settle` seconds. `before` is
    called before each run, and `jobs` clients run at once. `root` is the folder of the client's own files, else the current one.
    `find` writes each fault into the folder `remember` too, below the `name` of the client, and runs those that are there first.
    With `executor`, a `concurrent.futures.Executor` or a callable that makes one, `find` runs the client where that does, by its name.
    """

    upstreams: Mapping[str, str]
    client: Union[Client, str]
    check: Optional[Check] = None
    allowed: Union[Allowed, str] = OSError
    within: float = WITHIN
    before: Optional[Callable[[], object]] = None
    seed: int = 1
    jobs: int = 1
    program: Optional[StrPath] = None
    workers: Optional[int] = None
    isolated: bool = False
    eventually: Optional[Eventually] = None
    settle: float = SETTLED_WITHIN
    root: Optional[StrPath] = None
    remember: Optional[StrPath] = None
    name: Optional[str] = None
    executor: Optional[Executors] = None

    def find(
        self,
        *,
        runs: int = LIMITS.runs,
        budget: float = LIMITS.budget,
        max_found: int = LIMITS.max_found,
        connections: Optional[int] = None,
        stream: Optional[str] = None,
        kinds: Optional[Iterable[str]] = None,
        faults: Optional[Iterable[str]] = None,
        trickle: bool = False,
        folder: Optional[StrPath] = None,
        watch: Optional[Watch] = None,
    ) -> SearchResult:
        """Tries the boundaries of the conversation, late answers, outages, and `runs` drawn scripts, for at most `budget` seconds.

        `connections`, `stream` and `kinds`, types of toxics, or `faults`, words such as `closed`, say which faults. With `trickle` streams may be slower than
        `within` allows. What is found is written into `folder`, then `folder-2` and so on, or into new ones. `watch` is called after each run.

        Raises `ModuleNotFoundError` without Hypothesis, `ToxiError` where the client isn't right without a fault, or makes no connection, and what `check` and
        `before` raise.
        """
        __tracebackhide__ = True
        named, words = None if kinds is None else tuple(kinds), None if faults is None else tuple(faults)
        with python_progress(watch) as shown:
            return Engine(
                self._setup(),
                functools.partial(judge_of, check=self.check, allowed=self._allowed, eventually=self.eventually, settle=self.settle),
                FunctionSource(self._function, self.check, self._allowed, self.before, self.eventually),
                self.seed,
                Path(os.path.abspath(self.root or ".")),
                DrawnFaults(connections, stream, named, trickle, words),
                SearchLimits(runs, budget, max_found),
                functools.partial(numbered, None if folder is None else Path(folder)),
                shown,
                Memory.of(self.remember, self.name, self.upstreams),
                self._pool,
                self._about(SEARCH, {"runs": runs, "connections": connections, "stream": stream, "kinds": named, "trickle": trickle, "faults": words}),
            ).run()

    def sweep(
        self,
        *,
        faults: Sequence[str] = FAULTS,
        most: int = 2000,
        every_silence: bool = False,
        connections: Optional[int] = None,
        connect_timeout: Optional[int] = None,
        budget: Optional[float] = None,
        max_found: Optional[int] = None,
    ) -> Sweep:
        """Ends the conversation behind each byte of each stream of each connection, and returns the table of what came out. `sweep_faults` has the options.

        `connections` sweeps the first so many of each proxy alone. `budget`, in seconds, and `max_found`, points that fail, end it before.
        """
        __tracebackhide__ = True
        if self.executor is not None:
            raise ValueError("a sweep has no executor; `find` has one")
        from ..sweeping import Sweeping, chooser, progress_text

        judge = functools.partial(judge_of, check=self.check, allowed=self._allowed, eventually=self.eventually, settle=self.settle)
        choose = chooser(faults, most, every_silence, self.within, self.seed, connections)
        measures = any(fault in DELAYS for fault in faults)
        about = self._about(SWEEP, {"faults": tuple(faults), "most": most, "every_silence": every_silence, "connections": connections})
        sweeping = Sweeping(self._setup(connect_timeout), choose, judge, True, budget, max_found, most, measures, every_silence, about)
        # What it has then is its table, which says why it ended.
        with python_line(progress_text) as shown, contextlib.suppress(KeyboardInterrupt):
            sweeping.run(shown)
        return sweeping.sweep

    def rerun(self, folder: StrPath, *, times: int = 1) -> None:
        """Runs the client without a fault, and then `times` times under the script and the seed of a folder. Raises `AssertionError` where it isn't right."""
        __tracebackhide__ = True
        from ..rerunning import rerun

        judged: Dict[str, Any] = {"check": self.check, "allowed": self._allowed, "eventually": self.eventually, "settle": self.settle}
        rerun(folder, self._client, within=self.within, before=self.before, times=times, upstreams=self.upstreams, **judged)

    @property
    def _allowed(self) -> Allowed:
        return allowed_classes(self.allowed)

    @property
    def _pool(self) -> Optional[Pool]:
        """The pool of the client. Raises `ToxiError` for one that no worker finds by a name."""
        return None if self.executor is None else Pool(self.executor, Isolated(self.client).name, self.isolated)

    @property
    def _function(self) -> Client:
        return Isolated.function_of(self.client) if isinstance(self.client, str) else self.client

    @property
    def _client(self) -> Union[Client, Startable]:
        return Isolated(self.client) if self.isolated or isinstance(self.client, str) else self.client

    def _about(self, kind: str, options: Mapping[str, object]) -> About:
        client = self.name or (self.client if isinstance(self.client, str) else getattr(self.client, "__qualname__", repr(self.client)))
        return About(kind, str(client), self.seed, self.within, tuple(self.upstreams), {name: plain(value) for name, value in options.items()})

    def _setup(self, connect_timeout: Optional[int] = None) -> ClientSetup:
        if self.jobs < 1:
            raise ValueError(f"a search has at least one job, not jobs={self.jobs!r}")
        options = {"seed": self.seed, "program": self.program, "workers": self.workers, "connect_timeout": connect_timeout}
        return ClientSetup(self.upstreams, self._client, self.within, self.before, self.jobs, options)


def numbered(folder: Optional[Path], number: int) -> Optional[Path]:
    """The folder of what is found by its number: the one that is given, then with `-2` behind it and so on."""
    return folder if folder is None or number == 1 else folder.with_name(f"{folder.name}-{number}")


def warn_of_early_end(result: SearchResult) -> None:
    """A `ToxiWarning` where a search that found nothing hasn't tried the boundaries."""
    if not result.found and not result.first_phase_done:
        warnings.warn(f"the search ended by {result.ended_by} before the boundaries were tried: {result.runs} runs", ToxiWarning, stacklevel=4)
