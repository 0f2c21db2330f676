"""Records a client's conversation for a search or a sweep on other machines."""
import math

from ..batches import BatchRun, ClientSetup
from ..outcomes import HANG, Verdict
from .cases import Case
from .conversation import measuring_cases
from .conversation_file import KeptConversation
from .known import HANGS_OF_PLACE, Known
from .running import Cases, MakeJudge, Runner


def recorded(setup: ClientSetup, make_judge: MakeJudge) -> KeptConversation:
    """Runs the client without a fault, and then under silence, which shows its time limits.

    Raises `ToxiError` where it isn't right without a fault, or makes no connection.
    """
    __tracebackhide__ = True
    hangs = Known()

    def ended(run: BatchRun, verdict: Verdict) -> bool:
        if verdict == HANG:
            hangs.note_hang(run.case)
        return True

    def is_wanted(case: Case) -> bool:
        return hangs.hangs_of(case) < HANGS_OF_PLACE

    runner = Runner(setup, make_judge, math.inf)
    learned = runner.learn(1.0)
    known = runner.measure(learned, Cases(measuring_cases(learned.streams)), ended, is_wanted)
    return KeptConversation(tuple(setup.upstreams), known, dict(runner.called))
