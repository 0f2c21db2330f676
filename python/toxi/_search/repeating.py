"""Runs what has failed again: whether it comes again, how often, and under which smaller case it still does."""
import contextlib
import time
from dataclasses import dataclass
from pathlib import Path
from typing import Callable, Iterable, List, Optional, Sequence

from ..batches import BatchRun
from ..outcomes import Startable, Verdict
from .cases import Case
from .conversation import Conversation
from .failures import Failure
from .shrinking import shrunk
from .running import Cases, Over, Runner

# How often the smallest fault is run again.
REPETITIONS = 10
# A fault counts where the client fails so often in a row, so that what comes by chance isn't shrunk to. A hang takes long, and seldom comes by chance.
IN_A_ROW = 3
HANGS_IN_A_ROW = 2
# Of the budget, what repetitions may take past it, and what hangs may take.
REPETITION_SHARE = 1 / 3
HANG_SHARE = 1 / 4


@dataclass
class Repeating:
    """Repeats failures within a budget, in seconds. `takes` says of a case whether its faults are asked for. `current` is the failure that is
    shrunk. It `is_cut` where the clock has broken shrinking off."""

    runner: Runner
    root: Path
    budget: float
    takes: Callable[[Case], bool]
    current: Optional[Failure] = None
    is_cut: bool = False

    def comes_again(self, failure: Failure) -> bool:
        """Whether the client fails in the same way each time. One that didn't return isn't run again."""
        __tracebackhide__ = True
        more = (HANGS_IN_A_ROW if failure.is_hang else IN_A_ROW) - 1
        return not failure.outcome.returned or self.again(failure.case, more, failure.verdict) == [failure.verdict] * more

    def again(self, case: Case, times: int, until: Optional[Verdict] = None) -> List[Verdict]:
        """The verdicts of more runs, up to the first that isn't `until`, if that is given. Those that the budget kept from being run are missing.

        A client that stays for many runs has a fresh process for each of these, since an earlier run may have broken the kept one.
        """
        __tracebackhide__ = True
        verdicts: List[Verdict] = []

        def ended(run: BatchRun, verdict: Verdict) -> bool:
            verdicts.append(verdict)
            return until is None or verdict == until

        client = self.runner.setup.client
        try:
            with client.fresh() if isinstance(client, Startable) else contextlib.nullcontext():
                list(self.runner.run(Cases([case] * times), ended))
        except Over:
            # What runs next raises it again.
            pass
        return verdicts

    def shrunk(self, failure: Failure, conversation: Conversation, times: int, smaller: Callable[[Failure], object]) -> Failure:
        """The smallest case that fails in the same way, in one of `times` runs. `smaller` is called with it, and then with each smaller one. What the budget
        breaks off is as small as it has become."""
        __tracebackhide__ = True
        self.current = failure
        smaller(failure)
        try:
            for _ in shrunk(failure.case, conversation, self.takes, lambda cases: self._first_failing(cases, times)):
                smaller(self.current)
        except Over:
            # It is as small as it has become.
            pass
        return self.current

    def _first_failing(self, cases: Sequence[Case], times: int) -> Optional[int]:
        """The place of the first case that fails as the current failure does. It is the current one then."""
        __tracebackhide__ = True
        assert self.current is not None
        left = {case.key: case for case in cases}
        while True:
            failure = self._fails_first([case for case in left.values() for _ in range(times)], self.current)
            if failure is None:
                return None
            if times > 1 or failure.is_hang or self.comes_again(failure):
                self.current = failure
                return next(place for place, case in enumerate(cases) if case.key == failure.case.key)
            for case in list(left.values()):
                del left[case.key]
                if case.key == failure.case.key:
                    break

    def _fails_first(self, cases: Iterable[Case], like: Failure) -> Optional[Failure]:
        """The failure of the first case that fails as another one did."""
        __tracebackhide__ = True
        failed: List[Failure] = []

        def ended(run: BatchRun, verdict: Verdict) -> bool:
            if verdict == like.verdict and run.outcome is not None and not failed:
                failure = Failure(run.case, verdict, run.outcome, self.root)
                failed.extend([failure] if failure.key[1] == like.key[1] else [])
            return not failed

        self._require_reserve(like)
        list(self.runner.run(Cases(cases), ended))
        return failed[0] if failed else None

    def _require_reserve(self, like: Failure) -> None:
        """Shrinking leaves the repetitions their time, and hangs take a quarter of the budget at most."""
        reserve = min(REPETITIONS * like.outcome.seconds, REPETITION_SHARE * self.budget)
        is_late = time.monotonic() + reserve >= self.runner.end
        self.is_cut = self.is_cut or is_late
        if is_late or (like.is_hang and self.runner.hanging > HANG_SHARE * self.budget):
            raise Over("budget")
