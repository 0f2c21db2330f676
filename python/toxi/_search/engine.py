"""Runs a search of any client: a function, a process of its own, or a command."""
import time
import warnings
from dataclasses import dataclass, replace
from pathlib import Path
from typing import Callable, List, Optional, Tuple

from ..batches import ClientSetup
from ..client_source import ClientSource
from ..errors import ToxiError, ToxiWarning
from ..found import Found
from ..found_folder import FoundFolder
from .about import About
from .conversation_file import KeptConversation
from .kept_runs import KeptRuns
from .drawing import DrawnFaults
from .failures import Failure
from .memory import Memory
from .pool import Pool
from .result import Flaky, SearchResult, Tried
from .searching import Searching, SearchLimits, Smallest, Watch
from .running import MakeJudge
from .shards import Shard


@dataclass
class Engine:
    """What a search needs. `folder` gives the folder of what is found by its number, from 1, or None for a new one. `memory` has what was found
    before. `about` says what the result is of, with the shard. A shard needs the conversation that is `given` to all."""

    setup: ClientSetup
    make_judge: MakeJudge
    source: ClientSource
    seed: int
    root: Path
    faults: DrawnFaults
    limits: SearchLimits
    folder: Callable[[int], Optional[Path]]
    watch: Optional[Watch] = None
    memory: Optional[Memory] = None
    pool: Optional[Pool] = None
    about: Optional[About] = None
    given: Optional[KeptConversation] = None

    def run(self) -> SearchResult:
        """Searches. Raises `ToxiError` where the client isn't right without a fault, and `ModuleNotFoundError` without Hypothesis, before anything runs."""
        __tracebackhide__ = True
        self._require()
        remembered = [] if self.memory is None else self.memory.read()
        self._found: List[Found] = []
        self._searching = searching = Searching(
            self.setup,
            self.make_judge,
            self.faults,
            self.limits,
            self.seed,
            self.root,
            self._hand_over,
            self.watch or (lambda progress: None),
            remembered=remembered,
            pool=self.pool,
            given=self.given,
            shard=Shard() if self.about is None else self.about.shard,
        )
        try:
            ended_by = searching.run()
        except BaseException as error:
            self._tell_found(error)
            raise
        finally:
            if self.pool is not None:
                self.pool.close()
        return self._result(ended_by)

    def _result(self, ended_by: str) -> SearchResult:
        searching = self._searching
        known = searching.conversation
        return SearchResult(
            tuple(self._found),
            tuple(map(_flaky, searching.flaky)),
            self._tried(),
            ended_by,
            tuple(searching.done),
            () if known is None else tuple(map(str, known.limits)),
            searching.runner.count,
            time.monotonic() - searching.begun,
            () if self.memory is None else self.memory.states(searching.remembered_verdicts),
            self.about,
        )

    def _tell_found(self, error: BaseException) -> None:
        """A `ToxiWarning` where something has broken the search off that had found something."""
        if self._found:
            commands = "".join(f"\n{found.kind}: {found.command}" for found in self._found)
            warnings.warn(f"{type(error).__name__} has ended the search, which had found{commands}", ToxiWarning, stacklevel=4)

    def _require(self) -> None:
        if self.given is not None:
            self.given.require_upstreams(self.setup.upstreams)
        # None is to mean that no fault was found, and not that none was tried.
        if self.limits.runs < 1 or not self.limits.budget > 0 or self.limits.max_found < 1:
            raise ValueError(f"a search has at least one run and some seconds, not runs={self.limits.runs!r} and budget={self.limits.budget!r}")
        self.faults.require_known()
        folder = self.folder(1)
        if folder is None:
            return
        if folder.exists() and any(folder.iterdir()):
            raise ToxiError(f"{folder} isn't empty")
        try:
            folder.mkdir(parents=True, exist_ok=True)
            folder.rmdir()
        except OSError as error:
            raise ToxiError(f"{folder} can't be written: {error.strerror}") from None

    def _hand_over(self, smallest: Smallest) -> None:
        __tracebackhide__ = True
        searching, setup = self._searching, self._searching.runner.setup
        options = {name: setup.options.get(name) for name in ("program", "workers")}
        kept_runs = KeptRuns(setup.upstreams, setup.client, setup.within, self.seed, setup.before, **options)
        folder = FoundFolder(self.folder(len(self._found) + 1), smallest, self.source, kept_runs, searching.runner.judge)
        file = None if self.memory is None else self.memory.write(smallest.failure, self.seed)
        self._found.append(replace(folder.found(searching.runner.count, time.monotonic() - searching.begun), remembered=file))

    def _tried(self) -> Tuple[Tried, ...]:
        tallies = sorted(self._searching.runner.tallies.items())
        return tuple(Tried(word, stream, str(number or "all"), tally.runs, tally.reached) for (word, stream, number), tally in tallies)


def _flaky(failure: Failure) -> Flaky:
    return Flaky(str(failure.verdict), failure.case.script)
