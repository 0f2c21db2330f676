"""The words for faults: each with its toxic, and what its offset means.

| Word | Toxic | Its offset |
|---|---|---|
| `closed` | `limit_data` | bytes that pass before the link closes |
| `reset` | `reset_peer` with `after` | bytes that pass before the link is reset |
| `silent` | `timeout` with `after` | bytes that pass before nothing more comes |
| `slow` | `latency` | 0: each piece of the stream is late |
| `sliced` | `slicer` | bytes of a slice |
| `late` | `latency` with `from` and `until` | bytes before the one piece that is late |
| `refused` | none: the proxy isn't enabled | 0: each connect is refused |
"""
from typing import Dict, Tuple

# Each of them ends the conversation.
ENDINGS: Tuple[str, ...] = ("closed", "reset", "silent")
DELAYS: Tuple[str, ...] = ("slow", "late")
REFUSED = "refused"
# What a sweep can be asked for, in the order of its rows.
FAULTS: Tuple[str, ...] = (*ENDINGS, "sliced", *DELAYS)
# What a search can be asked for.
SEARCHED: Tuple[str, ...] = (*FAULTS, REFUSED)
# The word of a drawn toxic by its type.
WORD_OF_TYPE: Dict[str, str] = {
    "limit_data": "closed",
    "reset_peer": "reset",
    "timeout": "silent",
    "latency": "slow",
    "slow_close": "slow",
    "bandwidth": "slow",
    "slicer": "sliced",
}
# The types of toxics that a word asks for.
TYPES_OF_WORD: Dict[str, Tuple[str, ...]] = {
    "closed": ("limit_data",),
    "reset": ("reset_peer",),
    "silent": ("timeout",),
    "slow": ("latency", "slow_close", "bandwidth"),
    "sliced": ("slicer",),
    "late": ("latency",),
    "refused": (),
}
# The attribute with a position in the stream, by the type of the toxic. Those of times are halved alone: at the edge of a time limit a client fails now and then.
POSITIONS: Dict[str, str] = {"limit_data": "bytes", "reset_peer": "after", "timeout": "after"}
