"""Times that a caller gives."""
import math

# What the system's calls take, and more than anybody waits.
LONGEST = 1e6


def seconds(name: str, value: float) -> float:
    """A number of seconds to wait at most. Raises `TypeError` or `ValueError` for what is none."""
    if isinstance(value, bool) or not isinstance(value, (int, float)):
        raise TypeError(f"{name} is a number of seconds, not {value!r}")
    if math.isnan(value) or value < 0:
        raise ValueError(f"{name} is a number of seconds, not {value!r}")
    return min(value, LONGEST)
