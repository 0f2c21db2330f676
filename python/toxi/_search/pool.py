"""`Pool`: runs of a client by an executor of Python's."""
import math
import pickle
import threading
import time
from concurrent.futures import FIRST_COMPLETED, BrokenExecutor, CancelledError, Executor, Future, wait
from dataclasses import dataclass, replace
from typing import Callable, Dict, List, Optional, Sequence, Union

from ..batches import BatchRun, ClientSetup
from ..errors import ToxiError
from ..outcomes import GRACE, Judge
from .executed import Job, came_of, run_job

# So many runs are one job: fewer pay a start of `serve` each, and more leave workers idle at the end of a batch.
RUNS_OF_JOB = 4
# A callable is called again so often after its executor broke, and jobs that are lost without any other are run again so often.
MOST_AGAIN = 3

Executors = Union[Executor, Callable[[], Executor]]


@dataclass
class Pool:
    """Runs the client of this name, `module:function`, by an executor, or by those that a callable makes, which it ends. At `end`, by `time.monotonic`, the
    budget of the search is used up."""

    executors: Executors
    name: str
    isolated: bool
    end: float = math.inf
    _executor: Optional[Executor] = None
    _made: int = 0
    _lost: int = 0

    def run(
        self,
        setup: ClientSetup,
        runs: Sequence[BatchRun],
        judge: Optional[Judge],
        reads_logs: bool,
        came: Callable[[BatchRun], bool] = lambda run: True,
    ) -> None:
        """Runs them, but for those that are lost with a worker, which have no outcome. `came` is called with each by this thread; once it is false no other
        begins. Without a judge they are one job. Raises what a job raises, and `ToxiError` where the executor breaks too often, or takes no job."""
        __tracebackhide__ = True
        size = RUNS_OF_JOB if judge is not None else len(runs)
        parts = [runs[place : place + size] for place in range(0, len(runs), size)]
        jobs = self._submitted(replace(setup, client=_nobody), parts, judge, reads_logs)
        left = set(jobs)
        try:
            while left:
                done, left = wait(left, self._patience(setup), FIRST_COMPLETED)
                if not done:
                    raise ToxiError("the executor gives no answer, and the budget is used up")
                if not all([came(run) for future in done for run in self._noted(future, jobs[future])]):
                    # Those that run go on, and their verdicts may be needed later.
                    left = {future for future in left if not future.cancel()}
        finally:
            for future in left:
                future.cancel()
        self._require_some(runs)

    def _patience(self, setup: ClientSetup) -> float:
        """How long a job may take from now on, in seconds: until the end, and as long as one that has just begun."""
        return min(max(self.end - time.monotonic(), 0.0) + RUNS_OF_JOB * (setup.within + GRACE), threading.TIMEOUT_MAX)

    def _submitted(
        self, setup: ClientSetup, parts: Sequence[Sequence[BatchRun]], judge: Optional[Judge], reads_logs: bool
    ) -> "Dict[Future[bytes], Sequence[BatchRun]]":
        jobs = [Job(self.name, self.isolated, setup, tuple(run.case for run in part), judge, reads_logs) for part in parts]
        try:
            pickle.dumps(jobs)
        except Exception as error:
            raise ToxiError(f"`check`, `before`, `eventually` and the answer must be pickled for a worker: {error}") from None
        futures: "Dict[Future[bytes], Sequence[BatchRun]]" = {}
        try:
            for job, part in zip(jobs, parts):
                futures[self._current().submit(run_job, job)] = part
        except BrokenExecutor as error:
            self._drop(error)
        return futures

    def _current(self) -> Executor:
        if isinstance(self.executors, Executor):
            return self.executors
        if self._executor is None:
            self._executor = self.executors()
            self._made += 1
        return self._executor

    def _noted(self, future: "Future[bytes]", part: Sequence[BatchRun]) -> List[BatchRun]:
        """Those runs of a job that have come. None of a job that is lost."""
        try:
            answer = future.result()
        except CancelledError:
            return []
        except BrokenExecutor as error:
            self._drop(error)
            return []
        for run, each in zip(part, came_of(answer)):
            each.give(run)
        return [run for run in part if run.outcome is not None]

    def _drop(self, error: BrokenExecutor) -> None:
        """The executor is broken, so the next jobs are those of another one. Each of its jobs says so."""
        if isinstance(self.executors, Executor):
            raise ToxiError(f"the executor is broken, and no callable makes another one: {error}") from None
        if self._made > MOST_AGAIN:
            raise ToxiError(f"the executor broke {self._made} times: {error}") from None
        self.close()

    def _require_some(self, runs: Sequence[BatchRun]) -> None:
        self._lost = 0 if any(run.outcome is not None for run in runs) else self._lost + 1
        if self._lost > MOST_AGAIN:
            raise ToxiError(f"all jobs were lost {self._lost} times")

    def close(self) -> None:
        """Ends the executor, if it is one of ours."""
        executor, self._executor = self._executor, None
        if executor is not None:
            executor.shutdown(wait=True)


def _nobody(addresses: object) -> None:
    """In place of the client, which a worker imports."""
