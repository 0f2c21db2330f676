"""Toxicities in thousandths, and whole numbers that may have been meant as percent."""
import warnings

# Whole numbers that read as percent. 1 reads as every link too, and is refused.
PERCENTS = range(2, 101)


class Thousandths(int):
    """A toxicity that is meant as thousandths. In a script it is a text, such as `"0.03"`."""

    def __repr__(self) -> str:
        return f"thousandths({int(self)})"

    def __str__(self) -> str:
        return int.__repr__(self)


def thousandths(value: int) -> Thousandths:
    """So many thousandths as a toxicity: `toxicity=thousandths(30)` is 3 % of the links, and warns of nothing.

    Raises `TypeError` for what is no whole number. The program refuses one outside 0 to 1000.
    """
    if not isinstance(value, int) or isinstance(value, bool):
        raise TypeError(f"{value!r} is no whole number of thousandths")
    return Thousandths(value)


def warn_of_percent(toxicity: object, stacklevel: int) -> None:
    """Warns of a whole number from 2 to 100, which may have been meant as percent."""
    if type(toxicity) is int and toxicity in PERCENTS:
        # `errors` needs the rules, and these need this file.
        from .errors import ToxiWarning

        warnings.warn(
            f"toxicity={toxicity} is {toxicity} thousandths, {toxicity / 10:g} % of the links, and may be read as {toxicity} %: "
            f"write toxicity=thousandths({toxicity}) or toxicity={toxicity / 1000} for the first, toxicity={toxicity / 100} for the second",
            ToxiWarning,
            stacklevel=stacklevel + 1,
        )
