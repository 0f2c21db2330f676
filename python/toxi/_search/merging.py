"""Joins the results of shards: those of one client are one result."""
from dataclasses import dataclass, replace
from pathlib import Path
from typing import Dict, Iterable, List, Sequence, Tuple

from ..client_results import Result
from ..errors import ToxiError
from ..fault_points import ALL, ALL_WORD
from ..found import Found
from ..sweep_table import Sweep
from .about import About
from .memory import NOT_RUN, Remembered
from .result import ENDINGS_OF_SEARCH, SearchResult, Tried
from .result_file import read_results
from .shards import Shard


@dataclass(frozen=True)
class Part:
    """A result of a file."""

    path: Path
    about: About
    result: Result


def merged_files(paths: Iterable[Path]) -> List[Result]:
    """The results of some files, one for each client, in the order of the files.

    Raises `ToxiError` for a file without a result, and where shards are missing, double, or foreign: not of the same search as the first of their client.
    """
    groups: Dict[Tuple[str, str], List[Part]] = {}
    for path in paths:
        for result in read_results(path):
            assert result.about is not None
            groups.setdefault(result.about.group, []).append(Part(path, result.about, result))
    wrong = [line for parts in groups.values() for line in _wrong_with(parts)]
    if wrong:
        raise ToxiError("\n".join(wrong))
    return [_merged([part.result for part in sorted(parts, key=lambda part: part.about.shard.number)]) for parts in groups.values()]


def _wrong_with(parts: Sequence[Part]) -> List[str]:
    """A line for each shard that is foreign, double or missing."""
    first, wrong = parts[0], []
    taken: Dict[int, Path] = {}
    for part in parts:
        difference, shard = first.about.difference(part.about), part.about.shard
        if difference is not None:
            wrong.append(f"foreign: {part.path} isn't of the {first.about.kind} of {first.path}: {difference}")
        elif shard.number in taken:
            wrong.append(f"double: {part.path} has shard {shard} of {first.about.client!r}, as {taken[shard.number]} has")
        else:
            taken[shard.number] = part.path
    of = first.about.shard.of
    return wrong + [f"missing: shard {number}/{of} of {first.about.client!r}" for number in range(1, of + 1) if number not in taken]


def _merged(results: Sequence[Result]) -> Result:
    """One result of those of all shards."""
    about = results[0].about
    whole = None if about is None else replace(about, shard=Shard())
    sweeps = [result for result in results if isinstance(result, Sweep)]
    if sweeps:
        return replace(_merged_sweep(sweeps), about=whole)
    return replace(_merged_search([result for result in results if isinstance(result, SearchResult)]), about=whole)


def _merged_sweep(sweeps: Sequence[Sweep]) -> Sweep:
    return replace(
        sweeps[0],
        swept=[run for sweep in sweeps for run in sweep.swept],
        chosen=sum(sweep.chosen for sweep in sweeps),
        possible=sum(sweep.possible for sweep in sweeps),
        seconds=sum(sweep.seconds for sweep in sweeps),
        ended=next((sweep.ended for sweep in sweeps if sweep.ended is not None), None),
    )


def _merged_search(results: Sequence[SearchResult]) -> SearchResult:
    """Failures that several shards have shrunk to the same fault are one. The end is the one that says most: that of a shard which did least."""
    found = _found_of(results)
    kinds = {(each.kind, each.script) for each in found}
    flaky = dict.fromkeys(each for result in results for each in result.flaky if (each.kind, each.script) not in kinds)
    return replace(
        results[0],
        found=tuple(found),
        flaky=tuple(flaky),
        tried=_tried_of(results),
        ended_by=max((result.ended_by for result in results), key=ENDINGS_OF_SEARCH.index),
        phases=tuple(phase for phase in results[0].phases if all(phase in result.phases for result in results)),
        runs=sum(result.runs for result in results),
        seconds=sum(result.seconds for result in results),
        remembered=_remembered_of(results),
    )


def _found_of(results: Iterable[SearchResult]) -> List[Found]:
    same: Dict[Tuple[str, ...], List[Found]] = {}
    for found in (found for result in results for found in result.found):
        same.setdefault((found.kind, found.where, found.script, *found.refused), []).append(found)
    return [replace(each[0], failed=sum(one.failed for one in each), repeated=sum(one.repeated for one in each)) for each in same.values()]


def _tried_of(results: Iterable[SearchResult]) -> Tuple[Tried, ...]:
    counts: Dict[Tuple[str, str, str], Tuple[int, int]] = {}
    for each in (each for result in results for each in result.tried):
        runs, reached = counts.get((each.fault, each.stream, each.connection), (0, 0))
        counts[each.fault, each.stream, each.connection] = runs + each.runs, reached + each.reached
    return tuple(Tried(*place, *both) for place, both in sorted(counts.items(), key=_place))


def _place(entry: Tuple[Tuple[str, str, str], Tuple[int, int]]) -> Tuple[str, str, int]:
    (fault, stream, connection), _counts = entry
    return fault, stream, ALL if connection == ALL_WORD else int(connection)


def _remembered_of(results: Iterable[SearchResult]) -> Tuple[Remembered, ...]:
    """Each file was run by one shard."""
    found: Dict[Path, Remembered] = {}
    for each in (each for result in results for each in result.remembered):
        if each.file not in found or found[each.file].state == NOT_RUN:
            found[each.file] = each
    return tuple(found.values())
