"""The toxics of a rule, as dataclasses. All fields are given by keyword.

The program checks the values when it reads the script, so a wrong one raises a `ToxiFault` at the start. This file is made by
tests/tables of the program's own table.
"""
from dataclasses import dataclass
from typing import TYPE_CHECKING, Optional

from ._toxic import REQUIRED, Stream, Toxic, Toxicity

__all__ = ["Bandwidth", "Latency", "LimitData", "ResetPeer", "Slicer", "SlowClose", "Stream", "Timeout", "Toxic", "Toxicity"]

# The longest time that a toxic takes, in milliseconds.
MAX_MS = 3_600_000


@dataclass(frozen=True, repr=False)
class Latency(Toxic):
    """Delays all data by latency plus or minus jitter.

    `latency`: how much later data leaves. In milliseconds, 0 to 3,600,000.
    `jitter`: each piece leaves up to so much earlier or later than that. In milliseconds, 0 to 3,600,000.
    `until`: stops at that time, and from then on all passes; 0: never. In milliseconds, 0 to 3,600,000.
    `from_`: begins at that time, and until then all passes; 0: at once. In milliseconds, 0 to 3,600,000.
    """

    type = "latency"
    latency: int = 0
    jitter: int = 0
    until: int = 0
    from_: int = 0


@dataclass(frozen=True, repr=False)
class Bandwidth(Toxic):
    """Passes so many kilobytes (of 1000 bytes) a second.

    `rate`: how many pass each second. In kilobytes (of 1000 bytes) a second, 1 to 1,000,000; it has to be given.
    `until`: stops at that time, and from then on all passes; 0: never. In milliseconds, 0 to 3,600,000.
    `from_`: begins at that time, and until then all passes; 0: at once. In milliseconds, 0 to 3,600,000.
    """

    type = "bandwidth"
    rate: int = REQUIRED
    until: int = 0
    from_: int = 0

    if TYPE_CHECKING:

        def __init__(
            self,
            *,
            rate: int,
            until: int = 0,
            from_: int = 0,
            name: Optional[str] = None,
            stream: Stream = "downstream",
            toxicity: Optional[Toxicity] = None,
        ) -> None: ...


@dataclass(frozen=True, repr=False)
class SlowClose(Toxic):
    """Delays the closing.

    `delay`: how much later the link closes. In milliseconds, 0 to 3,600,000.
    """

    type = "slow_close"
    delay: int = 0


@dataclass(frozen=True, repr=False)
class Timeout(Toxic):
    """Drops all data, and closes after a time.

    `timeout`: when the link closes; 0: never. In milliseconds, 0 to 3,600,000.
    `from_`: begins at that time, and until then all passes; 0: at once. In milliseconds, 0 to 3,600,000.
    `after`: begins behind so many bytes, if that is sooner; 0: not for their sake. In bytes, 0 to 1,099,511,627,776.
    """

    type = "timeout"
    timeout: int = 0
    from_: int = 0
    after: int = 0


@dataclass(frozen=True, repr=False)
class ResetPeer(Toxic):
    """Resets the connection after a time.

    `timeout`: when the connection is reset. In milliseconds, 0 to 3,600,000.
    `after`: resets behind so many bytes, and not before that time; 0: at that time. In bytes, 0 to 1,099,511,627,776.
    """

    type = "reset_peer"
    timeout: int = 0
    after: int = 0


@dataclass(frozen=True, repr=False)
class Slicer(Toxic):
    """Cuts data into pieces, with a wait before each.

    `average_size`: the size of a piece. In bytes, 1 to 1,000,000; it has to be given.
    `size_variation`: a piece has up to so many bytes more or fewer; below average_size. In bytes.
    `delay`: the wait before each piece. In microseconds, 0 to 3,600,000,000.
    `until`: stops at that time, and from then on all passes; 0: never. In milliseconds, 0 to 3,600,000.
    `from_`: begins at that time, and until then all passes; 0: at once. In milliseconds, 0 to 3,600,000.
    """

    type = "slicer"
    average_size: int = REQUIRED
    size_variation: int = 0
    delay: int = 0
    until: int = 0
    from_: int = 0

    if TYPE_CHECKING:

        def __init__(
            self,
            *,
            average_size: int,
            size_variation: int = 0,
            delay: int = 0,
            until: int = 0,
            from_: int = 0,
            name: Optional[str] = None,
            stream: Stream = "downstream",
            toxicity: Optional[Toxicity] = None,
        ) -> None: ...


@dataclass(frozen=True, repr=False)
class LimitData(Toxic):
    """Closes the connection after so many bytes.

    `bytes`: how many pass before it closes. In bytes, 0 to 1,099,511,627,776.
    """

    type = "limit_data"
    bytes: int = 0
