"""`find_fault`: the smallest fault under which a client is wrong."""
from typing import Callable, Iterable, Mapping, Optional

from ._search.result import SearchResult
from ._search.search import Search, warn_of_early_end
from ._search.searching import SearchLimits, Watch
from .base import StrPath
from .found import Found
from .outcomes import WITHIN, Allowed, Check, Client

# How many faults are drawn, and what a search may take, in seconds.
RUNS = SearchLimits.runs
BUDGET = SearchLimits.budget


def find_fault(
    upstreams: Mapping[str, str],
    client: Client,
    *,
    check: Optional[Check] = None,
    allowed: Allowed = OSError,
    within: float = WITHIN,
    runs: int = RUNS,
    budget: float = BUDGET,
    seed: int = 1,
    before: Optional[Callable[[], object]] = None,
    connections: Optional[int] = None,
    stream: Optional[str] = None,
    kinds: Optional[Iterable[str]] = None,
    trickle: bool = False,
    folder: Optional[StrPath] = None,
    program: Optional[StrPath] = None,
    workers: Optional[int] = None,
    remember: Optional[StrPath] = None,
    name: Optional[str] = None,
    watch: Optional[Watch] = None,
) -> Optional[Found]:
    """The first fault that `Search(..).find(max_found=1, ..)` finds, or None. What its arguments mean stands there.

    A search that ends before it has tried the boundaries of the conversation, and has found nothing, is a `ToxiWarning`. Raises `ModuleNotFoundError` without
    Hypothesis, `ToxiError` where the client isn't right without a fault, or makes no connection, what `check` and `before` raise, and `KeyboardInterrupt`.
    """
    __tracebackhide__ = True
    search = Search(upstreams, client, check, allowed, within, before, seed, program=program, workers=workers, remember=remember, name=name)
    result = search.find(
        runs=runs, budget=budget, max_found=1, connections=connections, stream=stream, kinds=kinds, trickle=trickle, folder=folder, watch=watch
    )
    return first_found(result)


def first_found(result: SearchResult) -> Optional[Found]:
    """What a search for the first failure alone has found. Raises `KeyboardInterrupt` where that ended it; an end before the boundaries is a `ToxiWarning`."""
    __tracebackhide__ = True
    if result.ended_by == "interrupted":
        raise KeyboardInterrupt
    warn_of_early_end(result)
    return result.found[0] if result.found else None
