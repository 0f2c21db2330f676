"""A search: its phases, what they find, and how that is shrunk and repeated."""
import itertools
import time
from dataclasses import dataclass, field
from pathlib import Path
from typing import Callable, Dict, Iterable, List, Optional, Sequence, Set, Tuple

from ..batches import BatchRun, ClientSetup
from ..outcomes import Verdict
from ..rules import Rule
from ..toxics import Latency
from .cases import Case
from .conversation import Conversation, measuring_cases
from .conversation_file import KeptConversation
from .drawing import DrawnFaults, Drawing, drawn_cases
from .failures import Failure, FailureKey
from .known import HANGS_OF_PLACE, Known
from .phases import boundary_cases, late_cases, outage_cases
from .pool import Pool
from .repeating import HANG_SHARE, REPETITIONS, Repeating
from .running import Cases, Ended, MakeJudge, Over, Runner
from .shards import Shard

# Where no fault does that, one counts that the client fails under at least once more in so many runs.
CHANCES = 5
# The client must be done in a half of its limit without a fault.
SLOWEST_SHARE = 0.5
# Of so many drawn scripts those that delay nothing come first.
DRAWN_AT_ONCE = 200
# A remembered fault that isn't seen in so many runs is mended.
REMEMBERED_RUNS = 3
REMEMBERED = "remembered"
PHASES = ("boundaries", "late answers", "outages", "drawn")


@dataclass(frozen=True)
class SearchLimits:
    """How far a search goes: new drawn scripts, seconds in all, and different failures."""

    runs: int = 200
    budget: float = 120.0
    max_found: int = 5


@dataclass(frozen=True)
class Smallest:
    """A failure, shrunk, and how often it came in how many repetitions."""

    failure: Failure
    failed: int = 1
    repeated: int = 1

    @property
    def rules(self) -> Tuple[Rule, ...]:
        """Those of its case."""
        return self.failure.case.rules

    @property
    def verdict(self) -> Verdict:
        """That of its run."""
        return self.failure.verdict


@dataclass(frozen=True)
class Progress:
    """How far a search is: its runs, the smallest fault so far, and its phase."""

    runs: int
    smallest: Optional[Smallest]
    phase: str = PHASES[0]


Watch = Callable[[Progress], object]
Handed = Callable[[Smallest], object]


@dataclass
class Searching:
    """A search under way. `handed` is called with each fault that repetitions have shown. Cases that are `remembered` are run first, and have their verdicts by
    their keys in `remembered_verdicts`. A `shard` of it runs its part of the cases, over the conversation that is `given`."""

    setup: ClientSetup
    make_judge: MakeJudge
    faults: DrawnFaults
    limits: SearchLimits
    seed: int
    root: Path
    handed: Handed
    watch: Watch = lambda progress: None
    found: List[Smallest] = field(default_factory=list)
    flaky: List[Failure] = field(default_factory=list)
    done: List[str] = field(default_factory=list)
    conversation: Optional[Conversation] = None
    smallest: Optional[Smallest] = None
    remembered: Sequence[Case] = ()
    pool: Optional[Pool] = None
    given: Optional[KeptConversation] = None
    shard: Shard = Shard()
    remembered_verdicts: Dict[str, Verdict] = field(default_factory=dict)
    _failures: Known = field(default_factory=Known)
    _given: Set[FailureKey] = field(default_factory=set)
    _known: Set[str] = field(default_factory=set)
    _phase: str = PHASES[0]

    def __post_init__(self) -> None:
        self.begun = time.monotonic()
        if self.pool is not None:
            self.pool.end = self.begun + self.limits.budget
        self.runner = Runner(self.setup, self.make_judge, self.begun + self.limits.budget, self._watch, pool=self.pool)
        self._repeating = Repeating(self.runner, self.root, self.limits.budget, self._takes)

    def run(self) -> str:
        """Searches until it is done. Returns why it ended, a word of `SearchResult.ended_by`."""
        __tracebackhide__ = True
        try:
            self._learn_and_search()
            is_done = len(self.done) == len(PHASES) and not self._repeating.is_cut
            return "max_found" if self._is_full else "done" if is_done else "budget"
        except Over as over:
            return over.why
        except KeyboardInterrupt:
            return "interrupted"

    def _learn_and_search(self) -> None:
        __tracebackhide__ = True
        self.conversation = self.runner.learn(SLOWEST_SHARE, None if self.given is None else self.given.conversation)
        try:
            self._search()
            self._shrink_hangs()
            if not self.found:
                self._shrink_flaky()
        except (Over, KeyboardInterrupt):
            self._give_what_is_left()
            raise

    def _search(self) -> None:
        __tracebackhide__ = True
        assert self.conversation is not None
        self._run_remembered()
        if not self._is_full:
            self._measure(self.conversation)
        phases: List[Tuple[str, Callable[[Conversation], Iterable[Case]]]] = [
            (PHASES[0], lambda known: boundary_cases(known, self.setup.within)),
            (PHASES[1], late_cases),
            (PHASES[2], outage_cases),
            (PHASES[3], self._drawn),
        ]
        for name, cases in phases:
            if self._is_full or self._must_shrink:
                return
            self._phase = name
            self._take_new()
            self._run(self._queue(cases(self.conversation)))
            if not (self._is_full or self._must_shrink):
                self.done.append(name)

    def _run_remembered(self) -> None:
        """Runs each remembered case until it fails, at most `REMEMBERED_RUNS` times, since some fail now and then."""
        __tracebackhide__ = True
        self._phase = REMEMBERED if self.remembered else PHASES[0]
        own = list(self.shard.part(self.remembered))
        for _ in range(REMEMBERED_RUNS):
            verdicts = self.remembered_verdicts
            self._run(Cases([case for case in own if case.key not in verdicts or not verdicts[case.key].is_fault]))
        # The same in all shards, which draw the same.
        self._known.update(case.key for case in self.remembered)
        self._phase = PHASES[0]

    def _measure(self, conversation: Conversation) -> None:
        """Learns the client's time limits, unless they are given. Its failures under silence count if silence is asked for."""
        __tracebackhide__ = True
        cases = measuring_cases(conversation.streams)
        if self.given is not None:
            self._run(self._queue(cases))
            return
        counted = [self._takes(case) for case in cases]
        if not any(counted) and not self.faults.takes(Latency(), 1):
            return
        self._known.update(case.key for case in cases)
        ended: Ended = self._ended if all(counted) else lambda run, verdict: True
        self.conversation = self.runner.measure(conversation, Cases(cases), ended, self._is_wanted)

    def _drawn(self, conversation: Conversation) -> Iterable[Case]:
        """So many new scripts as are asked for, those that delay nothing first: their runs need no logs. A phase is drawn in parts, so that it begins soon."""
        # What a shard has called forth the others don't know.
        called = self.runner.called if self.given is None else self.given.called
        drawing = Drawing(conversation, called, self.faults, self.setup.within)
        drawn = itertools.islice(drawn_cases(drawing, self.seed, self._known), self.limits.runs)
        while True:
            part = list(itertools.islice(drawn, DRAWN_AT_ONCE))
            if not part:
                return
            yield from sorted(part, key=_delays)

    def _queue(self, cases: Iterable[Case]) -> Cases:
        """This shard's part of those that are new, and whose faults are asked for. Drawn ones are."""
        return Cases(self.shard.part(cases if self._phase == PHASES[3] else self._asked_for(cases)))

    def _asked_for(self, cases: Iterable[Case]) -> Iterable[Case]:
        for case in cases:
            if case.key not in self._known and self._takes(case):
                self._known.add(case.key)
                yield case

    def _is_wanted(self, case: Case) -> bool:
        """Whether the client doesn't hang at its places, as far as is known."""
        return self._failures.hangs_of(case) < (1 if self._phase == PHASES[3] else HANGS_OF_PLACE)

    def _takes(self, case: Case) -> bool:
        """Whether faults of this kind are asked for."""
        if case.refused:
            return self.faults.takes_refused
        return all(self.faults.takes(toxic, rule.first) for rule in case.rules for toxic in rule.toxics)

    @property
    def _is_full(self) -> bool:
        """Whether as many different failures are known as are to be found. Hangs are shrunk at the end."""
        return len(self.found) + len(self._failures.hangs) >= self.limits.max_found

    @property
    def _must_shrink(self) -> bool:
        """Whether the rest of the budget is that of the hangs, of which some wait."""
        return bool(self._failures.hangs) and time.monotonic() >= self.begun + (1 - HANG_SHARE) * self.limits.budget

    def _run(self, cases: Cases) -> None:
        """Runs cases, and takes each new failure as soon as its batch has ended, or none other may be found."""
        __tracebackhide__ = True
        while not (self._is_full or self._must_shrink):
            # The runs of one batch.
            ran = next(self.runner.run(cases, self._ended, self._is_wanted), None)
            self._take_new()
            if ran is None:
                return

    def _ended(self, run: BatchRun, verdict: Verdict) -> bool:
        """Notes a failure. Returns whether others may be run before it is looked at."""
        if self._phase == REMEMBERED:
            self.remembered_verdicts[run.case.key] = verdict
        if not verdict.is_fault or run.outcome is None:
            return not self._must_shrink
        failure = Failure(run.case, verdict, run.outcome, self.root)
        if failure.is_hang:
            self._failures.note_hang(run.case)
        if not self._failures.is_new(failure):
            return not self._must_shrink
        self._failures.new.append(failure)
        return len(self.found) + len(self._failures.new) < self.limits.max_found

    def _take_new(self) -> None:
        """Shrinks new failures, the smallest first. Hangs wait until the end."""
        __tracebackhide__ = True
        while True:
            failure = self._failures.smallest_new()
            if failure is None:
                return
            comes_again = self._repeating.comes_again(failure)
            self._failures.drop_smallest()
            if not comes_again:
                self._failures.add(failure)
                self.flaky.append(failure)
            elif failure.is_hang:
                self._failures.hangs.append(failure)
                self.smallest = self.smallest or Smallest(failure)
            elif not self._is_full:
                self._failures.add(failure)
                self._hand_over(self._shrunk(failure, 1))

    def _shrunk(self, failure: Failure, times: int) -> Failure:
        """The smallest case that fails in the same way, in one of `times` runs."""
        __tracebackhide__ = True
        assert self.conversation is not None
        return self._repeating.shrunk(failure, self.conversation, times, self._tell_smallest)

    def _tell_smallest(self, failure: Failure) -> None:
        self.smallest = Smallest(failure)

    def _hand_over(self, failure: Failure) -> None:
        """Repeats a failure. One that was shrunk to a known one isn't told again, and one that no repetition shows is flaky."""
        __tracebackhide__ = True
        # Until it is handed over, Ctrl-C hands it over as it is.
        self._repeating.current = failure
        verdicts: List[Verdict] = []
        is_given = failure.key in self._given
        if not is_given:
            self._failures.add(failure)
            verdicts = self._repeating.again(failure.case, REPETITIONS) if failure.outcome.returned else []
        failed = sum(verdict == failure.verdict for verdict in verdicts)
        if verdicts and not failed:
            self.flaky.append(failure)
        elif not is_given:
            self._give(Smallest(failure, failed, len(verdicts)) if verdicts else Smallest(failure))
        self._repeating.current = None

    def _give(self, found: Smallest) -> None:
        __tracebackhide__ = True
        self.smallest = found
        self.handed(found)
        self._given.add(found.failure.key)
        self.found.append(found)

    def _shrink_hangs(self) -> None:
        """The hangs, each unless another one explains it by now."""
        __tracebackhide__ = True
        while len(self.found) < self.limits.max_found:
            failure = self._failures.smallest_hang()
            if failure is None:
                return
            self._hand_over(self._shrunk(failure, 1) if failure.outcome.returned else failure)

    def _shrink_flaky(self) -> None:
        """Where nothing else was found: what came once more in some runs is shrunk too."""
        __tracebackhide__ = True
        for failure in list(self.flaky):
            again = self._repeating.again(failure.case, CHANCES)
            if not self.found and failure.verdict in again:
                self.flaky = [each for each in self.flaky if each is not failure]
                self._hand_over(self._shrunk(failure, CHANCES))

    def _give_what_is_left(self) -> None:
        """At an early end: failures that came again but weren't shrunk, or not repeated, are handed over as they are."""
        __tracebackhide__ = True
        current, self._repeating.current = self._repeating.current, None
        left = [failure for failure in self._failures.hangs if failure is not current and not self._failures.explains(failure)]
        for failure in ([] if current is None else [current]) + left:
            if len(self.found) < self.limits.max_found:
                self._failures.add(failure)
                self._give(Smallest(failure))
        self.flaky += self._failures.new

    def _watch(self) -> None:
        self.watch(Progress(self.runner.count, self.smallest, self._phase))


def _delays(case: Case) -> bool:
    return case.delays
