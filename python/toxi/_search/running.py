"""`Runner` runs a client under cases, in batches, within a budget, and counts what came."""
import itertools
import time
from collections import Counter, deque
from dataclasses import dataclass, field, replace
from typing import Callable, Deque, Dict, Iterable, Iterator, List, Optional, Sequence, Set, Tuple

from ..batches import Batch, BatchRun, ClientSetup
from ..conversations import StreamBytes, StreamKey, longer_streams
from ..errors import ToxiError
from ..lines import Link
from ..outcomes import GRACE, Judge, Outcome, Verdict
from .cases import Case, Place, word_of
from .conversation import Conversation
from .in_order import InOrder
from .pool import Pool
from .services import absent_services
from .words import POSITIONS, REFUSED

MakeJudge = Callable[[Sequence[Outcome]], Judge]
# Called with a run that has its outcome, and its verdict. A false value ends the runs.
Ended = Callable[[BatchRun, Verdict], bool]
Wanted = Callable[[Case], bool]
# Connections that only a fault calls forth, by proxy and number: the case that does, and what the connection carried then.
Called = Dict[Tuple[str, int], Tuple[Case, Link]]
# Runs without a fault: two, since an answer that changes by itself can't be compared.
UNFAULTED = 2
# Pieces that come at once are one piece in most runs. So more runs are recorded: as many as take so many seconds, and at most so many.
RECORDING = 1.0
MOST_RECORDED = 14
# So many cases are a batch, whatever the workers. What a batch finds is looked at before the next one begins.
BATCH = 64
# With so many clients that don't return a search ends.
MAX_STUCK = 8


class Over(Exception):
    """A search has used its budget, or clients don't return. `why` is a word of `SearchResult.ended_by`."""

    def __init__(self, why: str) -> None:
        super().__init__(why)
        self.why = why


@dataclass
class Tally:
    """How many runs there were under a fault in words, and how many of them reached it."""

    runs: int = 0
    reached: int = 0


class Cases:
    """Cases that are still to be run, or whose verdicts are still to be taken."""

    def __init__(self, cases: Iterable[Case]) -> None:
        self._source = iter(cases)
        self._front: Deque[BatchRun] = deque()

    def taken(self, most: int) -> List[BatchRun]:
        """The next ones, at most so many."""
        missing = max(most - len(self._front), 0)
        self._front.extend(map(BatchRun, itertools.islice(self._source, missing)))
        return [self._front.popleft() for _ in range(min(most, len(self._front)))]

    def put_back(self, runs: Sequence[BatchRun]) -> None:
        """They are the next ones again. One that has its verdict isn't run again."""
        self._front.extendleft(reversed(runs))


@dataclass
class Runner:
    """Runs cases. `end` is when the budget is used, by `time.monotonic`. `watch` is called after each run, and `finished` with each once its links have their
    lines, also where something ends the batch. A `pool` runs them, if one is given. `count` counts the runs, but for those without a fault."""

    setup: ClientSetup
    make_judge: MakeJudge
    end: float
    watch: Callable[[], object] = lambda: None
    finished: Callable[[BatchRun], object] = lambda run: None
    pool: Optional[Pool] = None
    count: int = 0
    stuck: int = 0
    hanging: float = 0.0
    tallies: Dict[Place, Tally] = field(default_factory=dict)
    connections: "Counter[str]" = field(default_factory=Counter)
    called: Called = field(default_factory=dict)
    judge: Judge = field(init=False)
    _recorded: Set[StreamKey] = field(default_factory=set)

    def learn(self, slowest_share: float, given: Optional[Conversation] = None) -> Conversation:
        """Runs the client twice without a fault, and gives its conversation, or the one that is given.

        Raises `ToxiError` where it isn't right, takes more than a share of its limit, or makes no connection.
        """
        __tracebackhide__ = True
        runs = self._unfaulted()
        outcomes = [run.outcome for run in runs if run.outcome is not None]
        try:
            self.judge = self.make_judge(outcomes)
        except ToxiError as error:
            self._require_services(error)
            raise
        slowest = max(outcome.seconds for outcome in outcomes)
        if slowest > self.setup.within * slowest_share:
            raise ToxiError(f"the client takes {slowest:.2f} s without a fault, so `within` must be above {slowest / slowest_share:.2f} s")
        if not any(run.links for run in runs):
            raise ToxiError("the client makes no connection to its proxies")
        more = self._more_recorded(min(MOST_RECORDED, int(RECORDING / max(slowest, 0.001)), self.setup.batch_size))
        # A client may keep a connection in its thread, and then it makes none in the next run.
        most = max(len(run.links) for run in runs)
        shares = len(more) > 1 and all(_is_right(run) and len(run.links) >= most for run in more)
        self.setup = replace(self.setup, keeps_logs=self.judge.reads_runs, shares_threads=shares)
        if given is not None:
            _require_alike(given, runs)
        known = _conversation_of([*runs, *filter(_is_right, more)]) if given is None else given
        self._recorded = set(known.by_key)
        return known

    def _unfaulted(self) -> List[BatchRun]:
        """Two runs without a fault. With more than 32 upstreams a `serve` has no proxies for two."""
        __tracebackhide__ = True
        found: List[BatchRun] = []
        while len(found) < UNFAULTED:
            found += self._recorded_runs(self.setup, min(UNFAULTED - len(found), self.setup.batch_size))
        return found

    def _require_services(self, error: ToxiError) -> None:
        """Raises `ToxiError` for a service that isn't there, which is why a client isn't right without a fault."""
        __tracebackhide__ = True
        for name, upstream, absent in absent_services(self.setup.upstreams):
            raise ToxiError(f"no service answers at {upstream}, the upstream {name!r}: {absent}\n{error}") from None

    def _more_recorded(self, count: int) -> List[BatchRun]:
        """More runs without a fault, for their pieces, by threads that several share."""
        __tracebackhide__ = True
        return self._recorded_runs(replace(self.setup, shares_threads=True), count) if count else []

    def _recorded_runs(self, setup: ClientSetup, count: int) -> List[BatchRun]:
        """Runs without a fault, one after the other: what they show is that of one job, whatever the jobs."""
        __tracebackhide__ = True
        runs = [BatchRun(Case()) for _ in range(count)]
        if self.pool is None:
            Batch(replace(setup, jobs=1), runs).run()
        while self.pool is not None and all(run.outcome is None for run in runs):
            self.pool.run(replace(setup, jobs=1), runs, None, True)
        return runs

    def measure(self, conversation: Conversation, cases: "Cases", ended: Ended, wanted: Wanted) -> Conversation:
        """The conversation with the time limits of the client. Its runs count as others do."""
        __tracebackhide__ = True
        return conversation.with_limits(list(self.run(cases, ended, wanted, reads_logs=True)))

    def run(self, cases: "Cases", ended: Ended, wanted: Wanted = lambda case: True, reads_logs: bool = False) -> Iterator[BatchRun]:
        """Runs cases until `ended` is false, and leaves the others in `cases`. Gives those whose verdicts were taken, in the order of the cases. A case that
        isn't `wanted` when its turn comes is dropped. Raises `Over` at the end of the budget, and where clients don't return."""
        __tracebackhide__ = True
        goes_on = [True]

        def take(run: BatchRun) -> bool:
            __tracebackhide__ = True
            assert run.outcome is not None and run.verdict is not None
            self._note(run.outcome)
            goes_on[0] = ended(run, run.verdict)
            self.watch()
            # A hang takes long, so it is looked at before more may come.
            return goes_on[0] and not run.outcome.hung and time.monotonic() < self.end

        while goes_on[0]:
            some = cases.taken(BATCH)
            if not some:
                return
            yield from self._batch(cases, InOrder(some, take, wanted), reads_logs)

    def _batch(self, cases: "Cases", order: InOrder, reads_logs: bool) -> List[BatchRun]:
        """Runs a batch, by as many `serve` as it takes. Gives the runs whose verdicts were taken."""
        __tracebackhide__ = True

        def one_ended(run: BatchRun) -> bool:
            __tracebackhide__ = True
            assert run.outcome is not None
            # A worker has judged it where it ran.
            run.verdict = run.verdict or self.judge.verdict(run.outcome)
            return order.advance()

        try:
            self.require_time()
            while order.advance() and (some := order.to_run):
                if self.pool is None:
                    Batch(self.setup, some[: self.setup.batch_size], one_ended, order.may_begin, reads_logs).run()
                else:
                    self.pool.run(self.setup, some, self.judge, reads_logs, one_ended)
        finally:
            cases.put_back(order.left)
            for run in order.taken:
                self._tally(run)
                self.finished(run)
        return order.taken

    def require_time(self) -> None:
        """Raises `Over` where no more is to be run."""
        if time.monotonic() >= self.end:
            raise Over("budget")
        if self.stuck >= MAX_STUCK:
            raise Over("client_stuck")

    def _note(self, outcome: Outcome) -> None:
        self.count += 1
        self.stuck += not outcome.returned
        # By the limit, and not by the clock: what hangs may take is equal for any number of jobs.
        self.hanging += (self.setup.within + (0 if outcome.returned else GRACE)) if outcome.hung else 0

    def _tally(self, run: BatchRun) -> None:
        """Counts a run for each of its faults, and the connections that it made."""
        for link in run.links:
            self.connections[link.proxy] = max(self.connections[link.proxy], link.number)
            self._note_called(run.case, link)
        for proxy in run.case.refused:
            self._tally_one((REFUSED, "upstream", 0), not any(link.proxy == proxy for link in run.links))
        for rule in run.case.rules:
            last = rule.last or max(self.connections[rule.proxy], rule.first)
            met = [link for link in run.links if link.proxy == rule.proxy and rule.first <= link.number <= last]
            for toxic in rule.toxics:
                offset = getattr(toxic, POSITIONS.get(toxic.type, ""), 0)
                carried = [link.down if toxic.stream == "downstream" else link.up for link in met]
                place = (word_of(toxic), toxic.stream, 0 if rule.last is None else rule.first)
                # What begins with the stream is always reached.
                self._tally_one(place, offset in carried if offset else bool(met))

    def _note_called(self, case: Case, link: Link) -> None:
        """Keeps a connection that isn't made without a fault, with the case that calls it forth: the one under which it carries the most."""
        key = link.proxy, link.number
        if (*key, "downstream") in self._recorded or not case.calls(*key):
            return
        known = self.called.get(key)
        if known is None or (known[1].down, -len(known[0].rules)) < (link.down, -len(case.rules)):
            self.called[key] = case, link

    def _tally_one(self, place: Place, reached: bool) -> None:
        tally = self.tallies.setdefault(place, Tally())
        tally.runs += 1
        tally.reached += reached


def _require_alike(given: Conversation, runs: Iterable[BatchRun]) -> None:
    """Raises `ToxiError` where a conversation is that of another client. How many connections one makes may change by itself."""
    made = sorted({link.proxy for run in runs for link in run.links})
    if made != sorted(given.proxies):
        raise ToxiError(f"the client connects to {', '.join(made)}, and in the conversation that it was given to {', '.join(given.proxies) or 'none'}")


def _conversation_of(runs: Iterable[BatchRun]) -> Conversation:
    streams: List[StreamBytes] = []
    for run in runs:
        streams = longer_streams(streams, run.streams)
    return Conversation(streams)


def _is_right(run: BatchRun) -> bool:
    """Whether a run without a fault has an answer."""
    return run.outcome is not None and run.outcome.error is None and not run.outcome.hung

