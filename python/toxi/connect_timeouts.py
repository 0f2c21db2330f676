"""How long a connect to an upstream may take, as a suite gives it."""
import warnings
from datetime import timedelta
from typing import Optional, Union

from .errors import ToxiWarning

ConnectTimeout = Union[int, timedelta, None]
MILLISECOND = timedelta(milliseconds=1)
# A number below reads as seconds too.
LEAST_EXPECTED = 50


def milliseconds(connect_timeout: ConnectTimeout) -> Optional[int]:
    """A time limit in whole milliseconds, where a `timedelta` is rounded up. The program refuses one outside its range.

    Raises `TypeError` for a float, which may have been meant as seconds. A number below 50 is a `ToxiWarning`.
    """
    if isinstance(connect_timeout, timedelta):
        return -(-connect_timeout // MILLISECOND)
    if connect_timeout is None:
        return None
    if isinstance(connect_timeout, bool) or not isinstance(connect_timeout, int):
        raise TypeError(
            f"connect_timeout is a whole number of milliseconds or a timedelta, not {connect_timeout!r}: "
            "for half a second write connect_timeout=500 or connect_timeout=timedelta(seconds=0.5)"
        )
    if connect_timeout < LEAST_EXPECTED:
        meant = f"timedelta(seconds={connect_timeout}) for seconds, timedelta(milliseconds={connect_timeout}) for this"
        # The call of `Toxi` stands two levels above.
        warnings.warn(f"connect_timeout={connect_timeout} is in milliseconds: write {meant}", ToxiWarning, stacklevel=3)
    return connect_timeout
