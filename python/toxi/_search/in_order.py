"""`InOrder`: the verdicts of a batch are taken in its order, whatever the order in which its runs end."""
import threading
from collections import deque
from typing import Callable, Deque, List, Sequence

from ..batches import BatchRun
from .cases import Case


class InOrder:
    """Takes the runs of a batch, each once those before it were taken or dropped. So what is known at each is what one worker would know.

    `take` is called with each run that has its verdict; a false value ends the batch, and so does what it raises. A run whose case isn't `wanted` when its
    turn comes is dropped, also where it has ended: it began before that was known. A case that isn't wanted once is never wanted again.
    """

    def __init__(self, runs: Sequence[BatchRun], take: Callable[[BatchRun], bool], wanted: Callable[[Case], bool]) -> None:
        self.taken: List[BatchRun] = []
        self._waiting: Deque[BatchRun] = deque(runs)
        self._take, self._wanted = take, wanted
        self._is_over = False
        self._lock = threading.RLock()

    def advance(self) -> bool:
        """Takes all that can be taken. Returns whether others may begin."""
        __tracebackhide__ = True
        with self._lock:
            while self._waiting and not self._is_over:
                run = self._waiting[0]
                is_wanted = self._wanted(run.case)
                if is_wanted and run.verdict is None:
                    break
                self._waiting.popleft()
                if is_wanted:
                    self._is_over = True
                    self.taken.append(run)
                    self._is_over = not self._take(run)
            return not self._is_over

    def may_begin(self, run: BatchRun) -> bool:
        """Whether a run's verdict may be needed, as far as is known."""
        with self._lock:
            return not self._is_over and self._wanted(run.case)

    @property
    def to_run(self) -> List[BatchRun]:
        """Those without a verdict whose verdicts may be needed. One that was lost, or that a hang kept from being run, is among them again."""
        with self._lock:
            return [run for run in self._waiting if run.verdict is None and self.may_begin(run)]

    @property
    def left(self) -> List[BatchRun]:
        """Those that weren't taken, nor dropped. Some may have their verdicts."""
        with self._lock:
            return list(self._waiting)
