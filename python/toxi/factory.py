"""`ToxiFactory`: what the fixtures `toxi`, `toxi_module` and `toxi_session` are."""
from dataclasses import dataclass, field
from pathlib import Path
from typing import Any, Callable, Dict, Iterable, List, Mapping, Optional, Sequence, Union

from ._search.result import SearchResult
from ._search.search import Search
from .base import START_LIMIT, StrPath
from .connect_timeouts import ConnectTimeout
from .client_results import Result
from .finding import BUDGET, RUNS, first_found
from .found import Found
from .kept_sweep import KeptSweep
from .outcomes import SETTLED_WITHIN, WITHIN, Allowed, Check, Client, Eventually
from .program import found_program
from .proxies import Proxies
from .rules import Rule
from .runs import Position, Run
from .served import Toxi
from .sweep_table import Sweep
from .sweeping import MOST, SWEPT, sweep_faults


@dataclass(frozen=True)
class Begun:
    """How far a factory was at an instant: how many proxies were started, where those that lived stood, and how much was found, searched and swept."""

    started: int = 0
    positions: Dict[Toxi, Position] = field(default_factory=dict)
    found: int = 0
    results: int = 0


@dataclass(frozen=True)
class Shown:
    """A `Toxi` that a test may have used: its number in its factory, from 1, and where it stood when the test began."""

    number: int
    served: Toxi
    since: Position

    @property
    def runs(self) -> List[Run]:
        """Its runs since then."""
        return list(self.served.runs[self.since.run - 1 :])


class ToxiFactory:
    """Starts proxies under one seed, `seed`. They end with the scope of the fixture, or where a `with` statement of one ends.

    def test_slow_answer(toxi: ToxiFactory) -> None:
        served = toxi({"shop": "127.0.0.1:8080"}, [Rule("shop", [Latency(latency=100)])])
    """

    def __init__(self, seed: int, folder: Path, program: Optional[str] = None, workers: Optional[int] = None, root: Optional[Path] = None) -> None:
        self.seed = seed
        self._root = root
        self._folder = folder
        self._program = program
        self._workers = workers
        self._started: List[Toxi] = []
        self._found: List[Union[Found, KeptSweep]] = []
        # What its searches and sweeps came to so far.
        self.results: List[Result] = []

    def __call__(
        self,
        proxies: Proxies,
        rules: Union[str, Iterable[Rule]] = (),
        *,
        seed: Optional[int] = None,
        program: Optional[StrPath] = None,
        directory: Optional[StrPath] = None,
        links: Optional[int] = None,
        workers: Optional[int] = None,
        connect_timeout: ConnectTimeout = None,
        log: Optional[StrPath] = None,
        start_timeout: float = START_LIMIT,
    ) -> Toxi:
        """Starts a `Toxi`, whose options these are. `connect_timeout` is in milliseconds or a `timedelta`, `start_timeout` in seconds.

        What isn't given is the fixture's: the seed, the program, the number of workers, and folders for its files and its logs.
        """
        folder = self._folder / f"toxi-{len(self._started) + 1}"
        served = Toxi(
            proxies,
            rules,
            seed=self.seed if seed is None else seed,
            program=self._own_program() if program is None else program,
            directory=folder if directory is None else directory,
            links=links,
            workers=self._workers if workers is None else workers,
            connect_timeout=connect_timeout,
            log=folder / "logs" if log is None else log,
            start_timeout=start_timeout,
        )
        served.start()
        self._started.append(served)
        return served

    def search(
        self,
        upstreams: Mapping[str, str],
        client: Union[Client, str],
        *,
        check: Optional[Check] = None,
        allowed: Union[Allowed, str] = OSError,
        within: float = WITHIN,
        before: Optional[Callable[[], object]] = None,
        jobs: int = 1,
        isolated: bool = False,
        eventually: Optional[Eventually] = None,
        settle: float = SETTLED_WITHIN,
    ) -> "FixtureSearch":
        """`toxi.Search` under the fixture's seed, program and number of workers. What it finds and sweeps is in the report of a red test."""
        judged = check, allowed, within, before, self.seed, jobs, self._own_program(), self._workers, isolated, eventually, settle, self._root
        return FixtureSearch(upstreams, client, *judged, factory=self)

    def next_folder(self, kind: str) -> Path:
        """Where the next of what is found or swept is written."""
        return self._folder / f"{kind}-{len(self._found) + 1}"

    def keep(self, results: Iterable[Union[Found, Sweep]]) -> None:
        """Puts what was found and swept into the report of a red test."""
        for result in results:
            if isinstance(result, Sweep):
                kept = KeptSweep(result, self.next_folder("sweep"))
                kept.write_files()
                self._found.append(kept)
            else:
                self._found.append(result)

    def find_fault(
        self,
        upstreams: Mapping[str, str],
        client: Client,
        *,
        check: Optional[Check] = None,
        allowed: Allowed = OSError,
        within: float = WITHIN,
        runs: int = RUNS,
        budget: float = BUDGET,
        before: Optional[Callable[[], object]] = None,
        connections: Optional[int] = None,
        stream: Optional[str] = None,
        kinds: Optional[Iterable[str]] = None,
        trickle: bool = False,
    ) -> Optional[Found]:
        """`toxi.find_fault` under the fixture's seed, program and number of workers. What it finds is in the report of a red test."""
        __tracebackhide__ = True
        search = self.search(upstreams, client, check=check, allowed=allowed, within=within, before=before)
        options: Dict[str, Any] = {"connections": connections, "stream": stream, "kinds": kinds, "trickle": trickle}
        return first_found(search.find(runs=runs, budget=budget, max_found=1, **options))

    def sweep_faults(
        self,
        upstreams: Mapping[str, str],
        client: Client,
        *,
        faults: Sequence[str] = SWEPT,
        most: int = MOST,
        jobs: int = 1,
        every_silence: bool = False,
        check: Optional[Check] = None,
        allowed: Allowed = OSError,
        within: float = WITHIN,
        before: Optional[Callable[[], object]] = None,
    ) -> Sweep:
        """`toxi.sweep_faults` under the fixture's seed, program and number of workers. Its table is in the report of a red test."""
        __tracebackhide__ = True
        sweep = sweep_faults(
            upstreams,
            client,
            faults=faults,
            most=most,
            jobs=jobs,
            every_silence=every_silence,
            check=check,
            allowed=allowed,
            within=within,
            before=before,
            seed=self.seed,
            program=self._own_program(),
            workers=self._workers,
        )
        self.keep([sweep])
        self.results.append(sweep)
        return sweep

    def _own_program(self) -> Optional[str]:
        """The program of the fixture's settings. None where they have none."""
        return None if self._program is None else found_program(self._program)

    def stop(self) -> None:
        """Ends all of them."""
        for served in self._started:
            served.stop()

    def begun(self) -> Begun:
        """How far they are now."""
        lives = {served: served.runs[-1].position() for served in self._started if not served.stopped}
        return Begun(len(self._started), lives, len(self._found), len(self.results))

    def found(self, begun: Begun) -> List[Union[Found, KeptSweep]]:
        """The faults that were found since, and the sweeps."""
        return self._found[begun.found :]

    def shown(self, begun: Begun) -> List[Shown]:
        """Those that have lived since."""
        each = enumerate(self._started, 1)
        return [
            Shown(number, served, begun.positions.get(served, Position()))
            for number, served in each
            if number > begun.started or served in begun.positions
        ]


@dataclass(frozen=True)
class FixtureSearch(Search):
    """A `Search` whose results are in the report of a red test, by its `factory`. Its options are those of `Search`."""

    factory: Optional[ToxiFactory] = None

    def find(self, **options: Any) -> SearchResult:
        """As `Search.find`, with folders of the fixture."""
        __tracebackhide__ = True
        assert self.factory is not None
        given: Dict[str, Any] = {"folder": self.factory.next_folder("found"), **options}
        result = super().find(**given)
        self.factory.keep(result.found)
        self.factory.results.append(result)
        return result

    def sweep(self, **options: Any) -> Sweep:
        """As `Search.sweep`, kept in a folder of the fixture."""
        __tracebackhide__ = True
        assert self.factory is not None
        sweep = super().sweep(**options)
        self.factory.keep([sweep])
        self.factory.results.append(sweep)
        return sweep
