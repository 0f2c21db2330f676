"""Runs of a client behind proxies of one `serve`, each run with a proxy of its own for each upstream."""
import json
import tempfile
import threading
from collections import deque
from concurrent.futures import ThreadPoolExecutor
from dataclasses import dataclass, field, replace
from functools import partial
from pathlib import Path
from typing import Any, Callable, Deque, Dict, List, Mapping, Optional, Sequence, Set, Union

from ._search.client_threads import FunctionClient
from ._search.cases import Case, batch_script
from ._search.client_run import ClientRun
from ._search.holding import held_seconds
from ._search.serving import BatchToxi, remove_all
from .conversations import StreamBytes, streams_of
from .fault_points import FaultPoint
from .lines import Address, Link
from .outcomes import Addresses, StartedRun, Client, Outcome, Startable, Verdict, run_client
from .ports import refusing

# A populate file has at most so many proxies.
MAX_PROXIES = 64


@dataclass(frozen=True)
class ClientSetup:
    """A client and what its runs have in common: the upstreams by the names of their proxies, its limit `within` in seconds, what runs before each run,
    how many run at once, and the options of each `Toxi`. With `keeps_logs` each run has logs, and with
    `shares_threads` several runs of a function have one thread."""

    upstreams: Mapping[str, str]
    client: Union[Client, Startable]
    within: float
    before: Optional[Callable[[], object]]
    jobs: int
    options: Mapping[str, Any]
    keeps_logs: bool = False
    shares_threads: bool = False

    @property
    def batch_size(self) -> int:
        """How many runs one `serve` has proxies for."""
        return max(MAX_PROXIES // max(len(self.upstreams), 1), 1)


@dataclass
class BatchRun:
    """A run of a batch: its case, its outcome once it has ended, the verdict once that is judged, its links, and what their streams carried if logs are
    read."""

    case: Case
    outcome: Optional[Outcome] = None
    verdict: Optional[Verdict] = None
    links: List[Link] = field(default_factory=list)
    streams: List[StreamBytes] = field(default_factory=list)

    def stream_of(self, point: FaultPoint) -> Optional[StreamBytes]:
        """The stream of a point. None where the client made no such connection."""
        return next((stream for stream in self.streams if stream.key == point.key), None)


class _Noted(Startable):
    """A client whose run is noted when it starts, so that it can be ended from another thread."""

    def __init__(self, client: Startable, note: Callable[[StartedRun], None]) -> None:
        self._client, self._note = client, note

    def start(self, addresses: Addresses) -> StartedRun:
        """Starts it."""
        started = self._client.start(addresses)
        self._note(started)
        return started


class Batch:
    """Some runs of a client behind one `serve`. Once one hangs, no other begins, and those that never began have no outcome.

    `ended` is called with each run that has its outcome, by the thread that ran it: a false value means that no other is to begin. A run that isn't `wanted`
    when it would begin isn't run. With `reads_logs` each run has its streams.
    """

    def __init__(
        self,
        setup: ClientSetup,
        runs: Sequence[BatchRun],
        ended: Callable[[BatchRun], object] = lambda run: True,
        wanted: Callable[[BatchRun], bool] = lambda run: True,
        reads_logs: bool = True,
    ) -> None:
        # Another batch may have lost them, when they had links already.
        self.runs = [_begun_anew(run) for run in runs]
        self._setup = setup
        self._ended, self._wanted = ended, wanted
        self._reads_logs = reads_logs
        self._keeps_logs = reads_logs or setup.keeps_logs or any(run.case.delays for run in runs)
        self._client = setup.client if isinstance(setup.client, Startable) else FunctionClient(setup.client, setup.shares_threads)
        self._waiting: Deque[int] = deque(range(len(runs)))
        self._running: Set[int] = set()
        self._started: Dict[int, StartedRun] = {}
        self._changed = threading.Condition()
        self._places = {name: place for place, name in enumerate(setup.upstreams)}
        self._refused: Dict[str, Address] = {}
        self._listening: Mapping[str, Address] = {}
        self._is_over = False
        self._toxi: BatchToxi

    def run(self) -> None:
        """Runs them. What raises ends those that run, and the outcomes so far are kept."""
        __tracebackhide__ = True
        upstreams = {self._proxy(name, number): upstream for number in range(len(self.runs)) for name, upstream in self._setup.upstreams.items()}
        script = batch_script([(run.case, {name: self._proxy(name, number) for name in self._places}) for number, run in enumerate(self.runs)])
        refused = sorted({name for run in self.runs for name in run.case.refused})
        with tempfile.TemporaryDirectory(prefix="toxi-runs-") as folder, refusing(refused) as self._refused:
            logs = Path(folder, "logs") if self._keeps_logs else None
            self._toxi = BatchToxi(_populated(upstreams), script, directory=folder, log=logs, **self._setup.options)
            try:
                with self._toxi:
                    self._listening = self._toxi.listening()
                    self._run_all()
            finally:
                if isinstance(self._client, FunctionClient):
                    self._client.close()
                self._note_links()
                if self._toxi.runs:
                    remove_all(self._toxi.logs())

    def _proxy(self, name: str, number: int) -> str:
        return f"{self._places[name]}-{number}"

    def _run_all(self) -> None:
        """This thread is one of those that run clients."""
        __tracebackhide__ = True
        if self._setup.jobs == 1:
            self._work()
            return
        with ThreadPoolExecutor(self._setup.jobs) as executor:
            others = [executor.submit(self._work) for _ in range(self._setup.jobs - 1)]
            try:
                self._work()
                for other in others:
                    other.result()
            except BaseException:
                self._abandon()
                raise

    def _work(self) -> None:
        """Runs one after the other."""
        __tracebackhide__ = True
        while True:
            with self._changed:
                if not self._waiting:
                    return
                number = self._waiting.popleft()
                self._running.add(number)
            try:
                self._run_one(number)
            finally:
                with self._changed:
                    self._running.discard(number)
                    self._changed.notify_all()

    def _run_one(self, number: int) -> None:
        __tracebackhide__ = True
        run = self.runs[number]
        if not self._wanted(run):
            return
        # Another thread ends a run only where there is one.
        client = self._client if self._setup.jobs == 1 else _Noted(self._client, partial(self._started.__setitem__, number))
        addresses = {name: self._listening[f"{place}-{number}"] for name, place in self._places.items()}
        if run.case.refused:
            addresses.update({name: self._refused[name] for name in run.case.refused})
        if self._setup.before is not None:
            self._setup.before()
        held = partial(self._held, number) if run.case.delays else None
        outcome = run_client(client, addresses, self._setup.within, partial(self._end_links, number), held)
        self._toxi.take_lines()
        with self._changed:
            # Else it was ended from outside, which says nothing of the client.
            counts = outcome.hung or number in self._running
        if counts:
            run.outcome = replace(outcome, run=ClientRun(run.case.rules, outcome.seconds, partial(self._streams_of, number)))
            if not self._ended(run):
                with self._changed:
                    self._waiting.clear()

    def _held(self, number: int, now: float) -> float:
        """How long the links of a run have held something back, in seconds, at a time of the run."""
        return held_seconds(self._toxi.logs_of({self._proxy(name, number) for name in self._places}), now)

    def _streams_of(self, number: int) -> List[StreamBytes]:
        """The streams of a run that has returned, from the logs so far, or from all of them once the batch is over."""
        if self._is_over:
            return self.runs[number].streams
        proxies = {self._proxy(name, number): name for name in self._places}
        streams = streams_of(self._toxi.settled_links(proxies), self._toxi.logs_of(proxies))
        return [stream.of_proxy(proxies[stream.proxy]) for stream in streams]

    def _end_links(self, number: int) -> None:
        """For a run that hangs: its links are broken once the others have ended or hang too, since they are those of one `serve`."""
        with self._changed:
            self._waiting.clear()
            self._running.discard(number)
            self._changed.notify_all()
            self._changed.wait_for(lambda: not self._running)
            self._toxi.stop()

    def _abandon(self) -> None:
        """Ends what runs in other threads."""
        with self._changed:
            self._waiting.clear()
            left = [self._started[number] for number in self._running if number in self._started]
            self._running.clear()
            self._changed.notify_all()
        for started in left:
            started.end()
        self._toxi.stop()

    def _note_links(self) -> None:
        """Gives each run its links. A link that lived has its line now, since `serve` has ended."""
        names = list(self._setup.upstreams)
        self._is_over = True
        if not self._toxi.runs:
            return
        links = self._toxi.links()
        for link in links:
            place, _, number = link.proxy.partition("-")
            self.runs[int(number)].links.append(Link(names[int(place)], link.number, link.up, link.up_end, link.down, link.down_end))
        for stream in streams_of(links, self._toxi.logs()) if self._reads_logs else ():
            place, _, number = stream.proxy.partition("-")
            self.runs[int(number)].streams.append(stream.of_proxy(names[int(place)]))


def _begun_anew(run: BatchRun) -> BatchRun:
    run.links, run.streams = [], []
    return run


def _populated(upstreams: Mapping[str, str]) -> str:
    """The populate file of proxies with names of ours, each on a port that the system chooses."""
    return json.dumps([{"name": name, "upstream": upstream, "listen": "127.0.0.1:0", "enabled": True} for name, upstream in upstreams.items()])
