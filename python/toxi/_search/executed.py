"""Some runs of a client as one job of an executor: what is sent there, what is done there, and what comes back."""
import pickle
import traceback
from dataclasses import dataclass, replace
from functools import partial
from typing import List, Optional, Sequence, Tuple

from .. import __version__
from ..batches import Batch, BatchRun, ClientSetup
from ..conversations import StreamBytes
from ..errors import ToxiError
from ..lines import Link
from ..outcomes import Judge, Outcome, Verdict
from .cases import Case
from .isolated import Isolated
from .services import absent_services


class WorkerTrace(Exception):
    """The traceback of a client's exception where it ran, as the cause of the exception here."""


@dataclass(frozen=True)
class Job:
    """Runs of the client of this name, `module:function`, by the setup, whose client is none. Without a `judge` they are those without a fault."""

    name: str
    isolated: bool
    setup: ClientSetup
    cases: Tuple[Case, ...]
    judge: Optional[Judge]
    reads_logs: bool
    version: str = __version__


@dataclass(frozen=True)
class Came:
    """What came of one run. Without an outcome it wasn't run, since another one hung. `trace` is the text of its exception's traceback."""

    outcome: Optional[Outcome]
    verdict: Optional[Verdict]
    links: Sequence[Link]
    streams: Sequence[StreamBytes]
    trace: str = ""

    def give(self, run: BatchRun) -> None:
        """Notes it in the run of the search."""
        if self.outcome is not None and self.outcome.error is not None:
            self.outcome.error.__cause__ = WorkerTrace(f"\n{self.trace}")
        run.outcome, run.verdict, run.links, run.streams = self.outcome, self.verdict, list(self.links), list(self.streams)


def run_job(job: Job) -> bytes:
    """Does a job where it runs, with a `serve` there. Gives what came of each run, pickled.

    Raises `ToxiError` where the package has another version, the client can't be imported, what it answers can't be pickled, or an upstream can't be reached.
    """
    if job.version != __version__:
        raise ToxiError(f"the worker has the package toxi of version {__version__}, and the search of {job.version}")
    client = Isolated(job.name) if job.isolated else Isolated.function_of(job.name)
    runs = list(map(BatchRun, job.cases))
    Batch(replace(job.setup, client=client), runs, partial(_judged, job.judge), reads_logs=job.reads_logs).run()
    if job.judge is None:
        _require_services(job, runs)
    try:
        return pickle.dumps(list(map(_came, runs)))
    except Exception as error:
        raise ToxiError(f"what the client {job.name} answers can't be pickled: {error}") from None


def _judged(judge: Optional[Judge], run: BatchRun) -> bool:
    assert run.outcome is not None
    run.verdict = None if judge is None else judge.verdict(run.outcome)
    return not run.outcome.hung


def _require_services(job: Job, runs: Sequence[BatchRun]) -> None:
    """Where a run without a fault fails, because an upstream can't be reached from here."""
    failed = [run.outcome for run in runs if run.outcome is not None and (run.outcome.hung or run.outcome.error is not None)]
    for name, upstream, absent in absent_services(job.setup.upstreams) if failed else ():
        raise ToxiError(f"no service answers a worker at {upstream}, the upstream {name!r}: {absent}")


def _came(run: BatchRun) -> Came:
    outcome, trace = run.outcome, ""
    if outcome is not None:
        # The run's reader needs the logs, which have gone.
        told = None if outcome.run is None else replace(outcome.run, read=partial(list, run.streams))
        outcome = replace(outcome, run=told)
    if outcome is not None and outcome.error is not None:
        error = outcome.error
        trace = "".join(traceback.format_exception(type(error), error, error.__traceback__)).rstrip("\n")
        places = tuple((each.filename, each.lineno or 0, each.name) for each in traceback.extract_tb(error.__traceback__))
        outcome = replace(outcome, error=_picklable(error), frames=places)
    return Came(outcome, run.verdict, run.links, run.streams, trace)


def _picklable(error: BaseException) -> BaseException:
    """The exception, or one of its class's name and its text where it can't be pickled."""
    try:
        pickle.loads(pickle.dumps(error))
        return error
    except Exception:
        return RuntimeError(f"{type(error).__qualname__}: {error}")


def came_of(answer: bytes) -> List[Came]:
    """What came of the runs of a job. What it raises is told by the job's own class."""
    found: List[Came] = pickle.loads(answer)
    return found
