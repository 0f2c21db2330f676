"""`sweep_faults`: a client's conversation is ended behind each byte, and what the client makes of it is a table."""
import functools
import math
import reprlib
import textwrap
import time
from collections import Counter
from dataclasses import replace
from typing import Callable, Dict, Iterable, List, Mapping, Optional, Sequence, Set, Union

from ._search.about import About
from ._search.cases import Case
from ._search.conversation import Conversation, measuring_cases
from ._search.conversation_file import KeptConversation
from ._search.edges import between, in_order, late_between
from ._search.running import Cases, MakeJudge, Over, Runner
from ._search.shards import Shard
from .base import StrPath
from .batches import BatchRun, ClientSetup
from .chosen_points import ChosenPoints, chosen_points
from .conversations import StreamBytes
from .fault_points import DELAYS, ENDINGS, FaultPoint
from .found import why_wrong
from .lines import printed
from .outcomes import WITHIN, Allowed, Check, Client, Kind, Outcome, Startable, Verdict
from .sweep_rows import SweptRun
from .sweep_table import Sweep

Progress = Callable[["Sweeping"], object]
Choose = Callable[[Conversation], ChosenPoints]
# What a sweep runs unless told: slices are asked for.
SWEPT = (*ENDINGS, *DELAYS)
MOST = 2000
# A failure without a failing neighbour may come by chance. It is looked for again in at most so many runs.
MORE_RUNS = 3
# Characters of an exception's text.
MAX_DETAIL = 200
INTERRUPTED = "it was interrupted"
EARLY = {
    "budget": "the budget was used up",
    "client_stuck": "clients didn't return when their links were broken",
    "max_found": "enough was found",
}


def sweep_faults(
    upstreams: Mapping[str, str],
    client: Union[Client, Startable],
    *,
    faults: Sequence[str] = SWEPT,
    most: int = MOST,
    jobs: int = 1,
    every_silence: bool = False,
    check: Optional[Check] = None,
    allowed: Allowed = OSError,
    within: float = WITHIN,
    before: Optional[Callable[[], object]] = None,
    seed: int = 1,
    program: Optional[StrPath] = None,
    workers: Optional[int] = None,
    connect_timeout: Optional[int] = None,
) -> Sweep:
    """Runs `client(addresses)` with its conversation ended behind each byte of each stream of each connection, and returns the table of what came out.

    `upstreams` maps names of proxies to `host:port`, and `addresses` the same names to where the proxies listen. The client may be a coroutine
    function. First it runs without a fault, twice: that tells its connections, their bytes, and the right answer. `check` says of an answer whether
    it is right, in place of equality. `allowed` are the exceptions that a fault may cause. A client hangs past `within` seconds and what its faults delay.

    `faults` are `closed`, `reset` and `silent`, behind so many bytes, `slow`, of a whole stream, `late`, of one piece, and `sliced`, into slices of so
    many bytes. There are at most `most` runs: those at the boundaries of what arrived first, of all connections too, then those where the outcome
    changes, then those beside boundaries, and others that `seed` draws. Silence comes near boundaries and where the outcome changes alone, unless
    `every_silence`. `jobs` clients run at once. `before` is called before each run, by the thread of the run.

    `program`, `workers` and `connect_timeout` (milliseconds) are the options of `Toxi`. Raises `ToxiError` where the client hangs or fails without a
    fault, or its answers differ and there is no `check`, and `ValueError` for a fault of another name, and for no fault, run or job.
    """
    __tracebackhide__ = True
    from ._search.search import Search

    if most < 1 or jobs < 1:
        raise ValueError(f"a sweep has at least one run and one job, not most={most!r} and jobs={jobs!r}")
    search = Search(upstreams, client, check, allowed, within, before, seed, jobs, program, workers)  # type: ignore[arg-type]
    return _whole(search.sweep(faults=faults, most=most, every_silence=every_silence, connect_timeout=connect_timeout))


def _whole(sweep: Sweep) -> Sweep:
    """A sweep that Ctrl-C didn't end. Raises `KeyboardInterrupt` for another."""
    if sweep.ended == INTERRUPTED:
        raise KeyboardInterrupt
    return sweep


def chooser(faults: Sequence[str], most: int, every_silence: bool, within: float, seed: int, connections: Optional[int] = None) -> Choose:
    """What chooses the points of a conversation. Raises `ValueError` for a fault of another name, and for none."""
    options = {"most": most, "every_silence": every_silence, "within": within, "seed": seed}
    chosen_points((), faults, most=1, every_silence=False, within=within, seed=seed)

    def choose(known: Conversation) -> ChosenPoints:
        streams = [stream for stream in known.streams if connections is None or stream.number <= connections]
        limits = [limit for limit in known.limits if connections is None or limit.number <= connections]
        return chosen_points(streams, faults, limits=limits, outages=True, **options)  # type: ignore[arg-type]

    return choose


class Sweeping:
    """A sweep that runs. `sweep` is what it has so far.

    `choose` gives the points of a client's conversation, and `judge_maker` the judge of its outcomes there. Where it `repeats`, points that stand alone are run
    again at the end. `most` bounds the runs, `budget` the seconds, and `max_found` the points that fail. `about` says what the sweep is of, with the shard,
    whose lines it runs. The shards of one sweep need the conversation that is `given` to all.
    """

    def __init__(
        self,
        setup: ClientSetup,
        choose: Choose,
        judge_maker: MakeJudge,
        repeats: bool = True,
        budget: Optional[float] = None,
        max_found: Optional[int] = None,
        most: int = MOST,
        measures: bool = True,
        every_silence: bool = False,
        about: Optional[About] = None,
        given: Optional[KeptConversation] = None,
    ) -> None:
        self._about, self._given = about, given
        self._choose, self._repeats, self._max_found, self._most, self._measures = choose, repeats, max_found, most, measures
        self._every_silence = every_silence
        self._begun = time.monotonic()
        self._runner = Runner(setup, judge_maker, math.inf if budget is None else self._begun + budget)
        self._known = Conversation(())
        self._chosen = ChosenPoints((), {})
        # Points at edges that weren't chosen, and those of them that aren't counted as possible.
        self._more = self._beyond = 0
        self._swept: Dict[FaultPoint, SweptRun] = {}
        self._verdicts: Dict[FaultPoint, Verdict] = {}
        self._ended: Optional[str] = INTERRUPTED
        # How many runs came to each kind so far, whether their points were reached or not.
        self.kinds: "Counter[Kind]" = Counter()

    @property
    def chosen(self) -> int:
        """How many points are run. Those at edges are among the most that may be, or in place of the last of the rest."""
        return min(len(self._chosen.points) + self._more, max(self._most, len(self._chosen.points)))

    @property
    def sweep(self) -> Sweep:
        """What was found so far."""
        possible = self._chosen.possible + self._beyond
        seconds = time.monotonic() - self._begun
        swept = list(self._swept.values())
        return Sweep(self._known.streams, swept, self.chosen, possible, seconds, self._ended, self._runner.setup.within, self._about)

    def run(self, progress: Progress = lambda sweeping: None) -> None:
        """Runs the chosen points. `progress` is called behind each run, by the thread that ran it."""
        __tracebackhide__ = True
        if self._given is not None:
            self._given.require_upstreams(self._runner.setup.upstreams)
        self._known = self._runner.learn(1.0, None if self._given is None else self._given.conversation)
        self._runner.watch = lambda: progress(self)
        try:
            self._run_all()
            self._ended = None
        except Over as over:
            self._ended = EARLY[over.why]

    def _run_all(self) -> None:
        __tracebackhide__ = True
        if self._measures and self._given is None:
            self._known = self._runner.measure(self._known, Cases(measuring_cases(self._known.streams)), lambda run, verdict: True, lambda case: True)
        self._runner.count = 0
        whole, shard = self._choose(self._known), Shard() if self._about is None else self._about.shard
        self._chosen = whole.part(shard)
        points = self._chosen.points
        # Of the runs that are left for edges each shard has its part.
        self._most = len(points) + max(0, self._most - len(whole.points)) // shard.of
        self._run(points[: self._chosen.first])
        if self._repeats:
            self._run_edges()
        rest = [point for point in points if point not in self._swept]
        self._run(rest[: self.chosen - len(self._swept)])
        if self._repeats:
            self._run_again()

    def _run(self, points: Iterable[FaultPoint]) -> None:
        """Runs points, and keeps what came of them."""
        __tracebackhide__ = True

        def ended(run: BatchRun, verdict: Verdict) -> bool:
            assert run.case.point is not None
            self._verdicts[run.case.point] = verdict
            self.kinds[verdict.kind] += 1
            return True

        self._runner.finished = self._note
        try:
            for _ in self._runner.run(Cases(map(Case.of, points)), ended, reads_logs=True):
                if self._max_found is not None and sum(each.fails for each in self._swept.values()) >= self._max_found:
                    raise Over("max_found")
        finally:
            self._runner.finished = lambda run: None

    def _note(self, run: BatchRun) -> None:
        point, outcome = run.case.point, run.outcome
        verdict = None if point is None else self._verdicts.get(point)
        if point is None or outcome is None or verdict is None:
            return
        self._swept[point] = SweptRun(point, verdict, is_reached(point, run.stream_of(point)), _detail(outcome, verdict, self._runner.judge.right))

    def _run_edges(self) -> None:
        """Bisects between neighbours of different outcomes: the points where the outcome changes come before the rest. Those of silence and of late pieces come
        beside the rest, since such a run takes the client's limit."""
        __tracebackhide__ = True
        chosen = set(self._chosen.points)
        while len(self._swept) < self._most:
            every = [*between(self._swept.values(), ENDINGS), *late_between(self._swept.values(), self._known.by_key)]
            middles = every[: self._most - len(self._swept)]
            if not middles:
                return
            more = [point for point in middles if point not in chosen]
            self._more += len(more)
            self._beyond += len([point for point in more if point.fault == "late" or (point.fault == "silent" and not self._every_silence)])
            self._run(middles)

    def _run_again(self) -> None:
        """Runs points that stand alone among neighbours of another outcome again, one after the other: a failure until it comes again, at most `MORE_RUNS`
        times, and what isn't one once."""
        __tracebackhide__ = True
        setup = self._runner.setup
        self._runner.setup = replace(setup, jobs=1)
        single = {row.first.point: row.first.verdict for row in self.sweep.failures if row.runs == 1}
        frayed = [point for point in _frayed(self._swept.values()) if point not in single]
        try:
            self._run(frayed)
            for _ in range(MORE_RUNS):
                verdicts = self._verdicts_again(list(single))
                single = {point: verdict for point, verdict in single.items() if verdicts.get(point, verdict) != verdict}
        finally:
            self._runner.setup = setup
        for point in single:
            self._swept[point] = replace(self._swept[point], other_runs=MORE_RUNS)

    def _verdicts_again(self, points: Sequence[FaultPoint]) -> Dict[FaultPoint, Verdict]:
        """The verdicts of one more run of each point."""
        __tracebackhide__ = True
        verdicts: Dict[FaultPoint, Verdict] = {}

        def ended(run: BatchRun, verdict: Verdict) -> bool:
            assert run.case.point is not None
            verdicts[run.case.point] = verdict
            return True

        list(self._runner.run(Cases(map(Case.of, points)), ended))
        return verdicts


def progress_text(sweeping: Sweeping) -> str:
    """How many runs there were, and of which kinds."""
    kinds = ", ".join(f"{sweeping.kinds[kind]} {kind.value}" for kind in reversed(Kind) if sweeping.kinds[kind])
    return f"{sum(sweeping.kinds.values())} of {sweeping.chosen}: {kinds}"


def _frayed(swept: Iterable[SweptRun]) -> List[FaultPoint]:
    """The points whose outcome differs from that of both neighbours, which have the same."""
    ordered = in_order(swept, ENDINGS)
    found = []
    for before, each, behind in zip(ordered, ordered[1:], ordered[2:]):
        same = before.point.key == behind.point.key and before.point.fault == behind.point.fault
        if same and before.outcome == behind.outcome != each.outcome:
            found.append(each.point)
    return found


def is_reached(point: FaultPoint, stream: Optional[StreamBytes]) -> bool:
    """Whether a stream came as far as a point. None is that of a link which wasn't made."""
    if stream is None:
        return False
    if point.fault in ENDINGS and point.offset > 0:
        return stream.bytes == point.offset
    if point.fault == "reset":
        return stream.end == "reset"
    if point.fault == "sliced":
        return max(stream.pieces, default=0) > point.offset
    if point.fault == "late":
        # A client may have given up before the piece was written.
        return sum(stream.pieces) > point.offset
    # A plain timeout begins with the link. A `limit_data` of 0 closes at the first piece, and what is slow needs one too.
    return point.fault == "silent" or bool(stream.pieces)


def _detail(outcome: Outcome, verdict: Verdict, right: object) -> str:
    """What a person sees beside a verdict: a wrong answer and the right one, or an exception's text."""
    if verdict.kind is Kind.WRONG:
        return why_wrong(outcome, verdict) or f"{reprlib.repr(outcome.answer)}, right {reprlib.repr(right)}"
    return "" if outcome.error is None else printed(textwrap.shorten(str(outcome.error), MAX_DETAIL, placeholder=".."))
