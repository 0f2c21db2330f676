"""What a run of a client comes to: an answer, an exception or a hang, and whether that is right."""
import inspect
import time
from dataclasses import dataclass
from enum import Enum
from functools import cached_property
from typing import Any, Callable, Optional, Sequence, Tuple, Type, Union

from ._search.client_threads import Addresses, StartedRun, Client, FunctionClient, Place, Startable, run_here
from ._search.client_run import ClientRun
from ._search.holding import LOG_LAG
from .errors import ToxiError

Check = Callable[..., Any]
# The old name.
Attempt = StartedRun
Eventually = Callable[[ClientRun], Any]
Allowed = Union[Type[BaseException], Tuple[Type[BaseException], ...]]
# How long a client may take unless told, in seconds.
WITHIN = 10.0
# How long a client that hangs may take to return once its links are broken, in seconds.
GRACE = 2.0
# How long `eventually` may take to become true, and how often it is asked, in seconds.
SETTLED_WITHIN = 2.0
ASKED_EACH = 0.05
# How long links have held something back, in seconds, at a time of the run in seconds.
Held = Callable[[float], float]
# What is held back counts for at most so many times the limit.
MAX_HELD = 3.0


@dataclass(frozen=True)
class Outcome:
    """How a run of a client ended: by `answer`, or by `error`, or it hung.

    `seconds` is its time. One that hung has `returned` only if it ended once its links were broken, and `frames` are where it was when its time was up,
    the innermost last. `run` is what a check may look at.
    """

    answer: Any = None
    error: Optional[BaseException] = None
    hung: bool = False
    returned: bool = True
    seconds: float = 0.0
    frames: Tuple[Place, ...] = ()
    run: Optional[ClientRun] = None


class Kind(Enum):
    """What a verdict says, the worst last."""

    RIGHT = "right"
    ALLOWED = "allowed"
    HANG = "hang"
    FAILED = "failed"
    WRONG = "wrong"


@dataclass(frozen=True)
class Verdict:
    """A judged outcome. `text` is `right`, `wrong answer`, `hang`, the class of an allowed exception, or `exception <class>` for another one."""

    kind: Kind
    text: str

    @property
    def is_fault(self) -> bool:
        """Whether the client is to be mended."""
        return self.kind not in (Kind.RIGHT, Kind.ALLOWED)

    def __str__(self) -> str:
        return self.text


RIGHT = Verdict(Kind.RIGHT, "right")
WRONG = Verdict(Kind.WRONG, "wrong answer")
UNSETTLED = Verdict(Kind.WRONG, "not settled")
HANG = Verdict(Kind.HANG, "hang")


@dataclass(frozen=True)
class Judge:
    """What is right: an answer that `check` accepts, by a true value. `allowed` are the classes of exceptions that a fault may cause.

    A check that needs two arguments gets the `ClientRun` too. `eventually` is asked of it each 50 ms until it is true, at most `settle` seconds. `right` is an
    answer without a fault, for a person.
    """

    check: Check
    allowed: Allowed = OSError
    eventually: Optional[Eventually] = None
    settle: float = SETTLED_WITHIN
    right: Any = None

    @cached_property
    def _check_needs_run(self) -> bool:
        return needs_run(self.check)

    @property
    def reads_runs(self) -> bool:
        """Whether it looks at the links of runs, for which logs are needed."""
        return self._check_needs_run or self.eventually is not None

    def verdict(self, outcome: Outcome) -> Verdict:
        """The verdict of a run. An exception of `check` other than AssertionError is raised."""
        __tracebackhide__ = True
        if outcome.hung:
            return HANG
        found = self._of_error(outcome.error) if outcome.error is not None else self.of_answer(outcome.answer, outcome.run)
        if found.is_fault or self.eventually is None or outcome.run is None:
            return found
        return found if self._settles(self.eventually, outcome.run) else UNSETTLED

    def of_answer(self, answer: Any, run: Optional[ClientRun] = None) -> Verdict:
        """The verdict of an answer."""
        __tracebackhide__ = True
        try:
            return RIGHT if (self.check(answer, _read(run)) if self._check_needs_run else self.check(answer)) else WRONG
        except AssertionError:
            return WRONG

    def _settles(self, eventually: Eventually, run: ClientRun) -> bool:
        __tracebackhide__ = True
        end = time.monotonic() + self.settle
        while True:
            try:
                if eventually(_read(run)):
                    return True
            except AssertionError:
                pass
            if time.monotonic() >= end:
                return False
            time.sleep(ASKED_EACH)

    def _of_error(self, error: BaseException) -> Verdict:
        name = type(error).__qualname__
        return Verdict(Kind.ALLOWED, name) if isinstance(error, self.allowed) else Verdict(Kind.FAILED, f"exception {name}")


def _read(run: Optional[ClientRun]) -> ClientRun:
    """The run with its links, which are read while there are logs."""
    assert run is not None
    run.links
    return run


def needs_run(check: Check) -> bool:
    """Whether a check can't be called with the answer alone, and can with the run too."""
    try:
        signature = inspect.signature(check)
    except (TypeError, ValueError):
        return False
    return not _binds(signature, 1) and _binds(signature, 2)


def _binds(signature: inspect.Signature, count: int) -> bool:
    try:
        signature.bind(*range(count))
    except TypeError:
        return False
    return True


def judge_of(
    unfaulted: Sequence[Outcome], check: Optional[Check], allowed: Allowed, eventually: Optional[Eventually] = None, settle: float = SETTLED_WITHIN
) -> Judge:
    """The judge that runs without a fault make: without `check`, an answer is right that equals theirs.

    Raises `ToxiError` where one of them hung or failed, `check` refuses its answer, or their answers differ and there is no `check`.
    """
    __tracebackhide__ = True
    for outcome in unfaulted:
        if outcome.hung:
            raise ToxiError(f"the client doesn't return within {outcome.seconds:.1f} s without a fault")
        if outcome.error is not None:
            raise ToxiError(f"the client fails without a fault: {type(outcome.error).__qualname__}: {outcome.error}") from outcome.error
    answers = [outcome.answer for outcome in unfaulted]
    if check is None:
        check = equal = Equals(answers[0])
        differing = [outcome for outcome in unfaulted if not equal(outcome.answer)]
        if differing:
            told = ", ".join(f"{outcome.answer!r} after {outcome.seconds:.2f} s" for outcome in (unfaulted[0], differing[0]))
            raise ToxiError(f"two answers without a fault differ, so give `check`, which says of an answer whether it is right: {told}")
    judge = Judge(check, allowed, eventually, settle, answers[0])
    for outcome in unfaulted:
        verdict = judge.verdict(outcome)
        if verdict is UNSETTLED:
            raise ToxiError(f"`eventually` isn't true within {settle:g} s of a run without a fault")
        if verdict is not RIGHT:
            raise ToxiError(f"`check` refuses an answer without a fault; it returns a true value for a right one: {outcome.answer!r}")
    return judge


@dataclass(frozen=True)
class Equals:
    """The check of a client without one: an answer is right that equals `expected`."""

    expected: Any

    def __call__(self, answer: Any) -> bool:
        return bool(answer == self.expected)


def run_client(
    client: Union[Client, Startable], addresses: Addresses, within: float, end_links: Callable[[], object], held: Optional[Held] = None
) -> Outcome:
    """Runs a client for at most `within` seconds. Past them `end_links` is called, and it has `GRACE` seconds more to return.

    A client is a function of the addresses by the names of their proxies, or a coroutine function, or `Startable`. Where its links may hold something back,
    `held` tells how long they have, in seconds, from the run's time: so much longer it may take, and `LOG_LAG` more.
    """
    begun = time.monotonic()
    started = (client if isinstance(client, Startable) else FunctionClient(client)).start(addresses)
    try:
        hung = not (started.wait(within) or (held is not None and _ends_late(started, begun, within, held)))
        seconds = time.monotonic() - begun
        if hung:
            frames = started.frames()
            started.end()
            end_links()
            return Outcome(hung=True, returned=started.wait(GRACE), seconds=seconds, frames=frames)
    except BaseException:
        started.end()
        raise
    return Outcome(started.answer, started.error, seconds=seconds)


def _ends_late(started: StartedRun, begun: float, within: float, held: Held) -> bool:
    """Whether a client that has used its time returns in what its links have held back."""
    longer = within + LOG_LAG
    while not started.wait(begun + longer - time.monotonic()):
        now = time.monotonic() - begun
        longer = within + LOG_LAG + min(held(now), MAX_HELD * within)
        if longer <= now:
            return False
    return True


__all__ = [
    "Addresses",
    "Allowed",
    "Attempt",
    "Check",
    "Client",
    "Equals",
    "Eventually",
    "GRACE",
    "HANG",
    "Judge",
    "Kind",
    "Outcome",
    "Place",
    "RIGHT",
    "SETTLED_WITHIN",
    "Startable",
    "StartedRun",
    "UNSETTLED",
    "Verdict",
    "WITHIN",
    "WRONG",
    "judge_of",
    "needs_run",
    "run_client",
    "run_here",
]
