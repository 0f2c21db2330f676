"""Seeds that a caller gives."""
import argparse

GREATEST = 2**64 - 1


def checked_seed(value: int) -> int:
    """The seed of a run. Raises `TypeError` or `ValueError` for what is none."""
    if isinstance(value, bool) or not isinstance(value, int):
        raise TypeError(f"seed is a whole number, not {value!r}")
    if not 0 <= value <= GREATEST:
        raise ValueError(f"seed is a whole number from 0 to {GREATEST}, not {value!r}")
    return value


def seed_argument(text: str) -> int:
    """The seed of a command line."""
    try:
        return checked_seed(int(text))
    except ValueError:
        raise argparse.ArgumentTypeError(f"{text!r} is no whole number from 0 to {GREATEST}") from None
