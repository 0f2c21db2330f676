"""What docs/TOXICS.md says that each toxic does, as a plain reading of it.

An item is an instant with a chunk, which is a half-open range of positions, or with an ending. An open link's ending has no
instant. `draw(j)` is a toxic's word j.
"""

HORIZON = 10**15


class SoFar:
    """What a toxic has done so far."""

    prev = 0
    chunks_taken = 0
    pieces_given = 0
    bytes_passed = 0


def in_order(_values, _draw, instant, chunk, so_far):
    yield max(so_far.prev, instant), chunk


def latency(values, draw, instant, chunk, so_far):
    jitter = values["jitter"]
    wait = max(0, values["latency"] - jitter + draw(1 + so_far.chunks_taken) % (2 * jitter + 1))
    so_far.chunks_taken += 1
    yield max(so_far.prev, min(HORIZON, instant + 1000 * wait)), chunk


def bandwidth(values, _draw, instant, chunk, so_far):
    rate = values["rate"]
    start, stop = chunk
    for first in range(start, stop, 100 * rate):
        last = min(first + 100 * rate, stop)
        yield min(HORIZON, max(so_far.prev, instant) - (-1000 * (last - first) // rate)), (first, last)


def slicer(values, draw, instant, chunk, so_far):
    variation = values["size_variation"]
    start, stop = chunk
    while start < stop:
        size = values["average_size"] - variation + draw(1 + so_far.pieces_given) % (2 * variation + 1)
        so_far.pieces_given += 1
        last = min(start + size, stop)
        yield min(HORIZON, max(so_far.prev, instant) + values["delay"]), (start, last)
        start = last


def first_bytes(most, instant, chunk, so_far, ending):
    """What of a chunk lies within the first bytes of a stream, and the ending behind the last of these bytes."""
    start, stop = chunk
    stop = min(stop, start + most - so_far.bytes_passed)
    so_far.bytes_passed += stop - start
    if start < stop:
        yield max(so_far.prev, instant), (start, stop)
    if so_far.bytes_passed == most:
        yield ending


def limit_data(values, _draw, instant, chunk, so_far):
    yield from first_bytes(values["bytes"], instant, chunk, so_far, (max(so_far.prev, instant), "closed"))


def reset_peer(values, draw, instant, chunk, so_far):
    due = 1000 * values["timeout"]
    if values["after"]:
        yield from first_bytes(values["after"], instant, chunk, so_far, (max(instant, due), "reset"))
    elif instant < due:
        yield from in_order(values, draw, instant, chunk, so_far)
    else:
        yield due, "reset"


def delays_nothing(kind, values):
    return kind == "latency" and values["latency"] == values["jitter"] == 0 or kind == "slow_close" and values["delay"] == 0


def drops_all(kind, values):
    """Whether it is a timeout that begins at once."""
    return kind == "timeout" and not values["from"] and not values["after"]


def has_begun(values, instant):
    """Whether a timeout has begun at an instant, whatever bytes have passed. None is the end of a stream that stays open."""
    if values["after"] and not values["from"]:
        return False
    return instant is None or instant >= 1000 * values["from"]


def begun(values, instant):
    """The ending of a timeout that begins at an instant."""
    return (max(instant, 1000 * values["timeout"]), "closed") if values["timeout"] else (None, "open")


def timeout(values, draw, instant, chunk, so_far):
    if has_begun(values, instant):
        yield begun(values, 1000 * values["from"])
    elif values["after"]:
        yield from first_bytes(values["after"], instant, chunk, so_far, begun(values, instant))
    else:
        yield from in_order(values, draw, instant, chunk, so_far)


GIVES = {
    "latency": latency,
    "bandwidth": bandwidth,
    "slow_close": in_order,
    "timeout": timeout,
    "reset_peer": reset_peer,
    "slicer": slicer,
    "limit_data": limit_data,
}


def end(kind, values, instant, ending, so_far):
    """What a toxic makes of an ending that comes to it."""
    if kind == "timeout" and has_begun(values, instant):
        return begun(values, 1000 * values["from"])
    due = 1000 * values.get("timeout", 0)
    if kind == "reset_peer" and not values["after"] and (instant is None or instant >= due):
        return due, "reset"
    if instant is None:
        return None, ending
    wait = 1000 * values["delay"] if kind == "slow_close" and ending == "closed" else 0
    return min(HORIZON, max(so_far.prev, instant) + wait), ending


def passes(kind, values, instant):
    """Whether a chunk comes to a latency, bandwidth or slicer before it begins or after it has stopped."""
    if kind not in ("latency", "bandwidth", "slicer"):
        return False
    return instant < 1000 * values["from"] or 0 < 1000 * values["until"] <= instant


def give(kind, values, draw, items):
    """What a toxic gives of a list of items, which ends in an ending."""
    so_far = SoFar()
    for instant, item in items:
        if isinstance(item, str):
            yield end(kind, values, instant, item, so_far)
            return
        for at, part in (in_order if passes(kind, values, instant) else GIVES[kind])(values, draw, instant, item, so_far):
            so_far.prev = at
            yield at, part
            if isinstance(part, str):
                return
