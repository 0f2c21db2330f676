"""Checks, and waits that have a limit."""
import time

# The longest wait for one thing, in seconds.
LIMIT = 10


class Failed(Exception):
    """What a case found wrong."""


class Late(Failed):
    """What came later than it may."""


def check(holds, what):
    if not holds:
        raise Failed(what)


def check_in_time(holds, what):
    """For what only its time makes wrong: a busy machine is late now and then, a wrong program each time."""
    if not holds:
        raise Late(what)


def wait_until(holds, what):
    end = time.monotonic() + LIMIT
    while not holds():
        check(time.monotonic() < end, f"not within {LIMIT} s: {what}")
        time.sleep(0.002)
