"""What was swept as JSON, and back: neighbours of one outcome are one object."""
import itertools
from dataclasses import replace
from typing import Any, Dict, Iterable, Iterator, List, Mapping, Sequence

from .fault_points import DELAYS, FaultPoint
from .outcomes import Kind, Verdict
from .sweep_rows import SweptRun, ordered


def swept_members(swept: Iterable[SweptRun]) -> List[Dict[str, object]]:
    """An object for each group of neighbours that had one outcome, at each of its offsets. The detail is that of the first."""
    numbered = enumerate(ordered(swept))
    # Points of delays stand alone: neighbours have different ones.
    grouped = itertools.groupby(numbered, lambda each: (*each[1].row_key, each[0] if each[1].point.fault in DELAYS else each[1].point.offset - each[0]))
    return [_members([run for _, run in same]) for _, same in grouped]


def _members(same: Sequence[SweptRun]) -> Dict[str, object]:
    first, point = same[0], same[0].point
    where = {"proxy": point.proxy, "link": point.number, "stream": point.stream, "fault": point.fault}
    offsets = {"offset": point.offset, "last_offset": same[-1].point.offset}
    delay = {"delay": point.delay, "window": list(point.window)} if point.delay else {}
    came = {"kind": first.verdict.kind.value, "text": first.verdict.text, "reached": first.reached, "other_runs": first.other_runs}
    return {**where, **offsets, **delay, **came, "detail": first.detail}


def swept_of(members: Iterable[Mapping[str, Any]]) -> Iterator[SweptRun]:
    """What was swept, of such objects. Raises `KeyError`, `TypeError` or `ValueError` for others."""
    for each in members:
        begin, end = each.get("window", (0, 0))
        place = each["proxy"], int(each["link"]), each["stream"], each["fault"], int(each["offset"])
        first = FaultPoint(*place, int(each.get("delay", 0)), (begin, end))
        run = SweptRun(first, Verdict(Kind(each["kind"]), each["text"]), bool(each["reached"]), each["detail"], int(each["other_runs"]))
        yield run
        for offset in range(first.offset + 1, int(each["last_offset"]) + 1):
            yield replace(run, point=replace(first, offset=offset), detail="")
