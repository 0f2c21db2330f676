"""Which of two scripts is the smaller fault."""
from typing import Sequence, Tuple

from .rules import Rule
from .toxics import Toxic

# The types of toxics, the simplest first.
KINDS = ("limit_data", "reset_peer", "timeout", "latency", "slow_close", "bandwidth", "slicer")
# What no end of a rule counts for: more than any last connection.
NO_END = 1_000_001


def size_of(rules: Sequence[Rule]) -> Tuple[float, ...]:
    """What is less for a smaller fault: rules, toxics, their kinds, attributes and toxicities, then connections, the stream, and numbers."""
    toxics = [toxic for rule in rules for toxic in rule.toxics]
    return (
        len(rules),
        len(toxics),
        sum(KINDS.index(toxic.type) for toxic in toxics),
        sum(map(_attributes, toxics)),
        sum(rule.first + (NO_END if rule.last is None else rule.last) for rule in rules),
        sum(toxic.stream == "upstream" for toxic in toxics),
        sum(_amount(name, value) for toxic in toxics for name, value in toxic.attributes().items()),
    )


def _amount(name: str, value: int) -> int:
    """How much of a fault an attribute is: a higher rate is less."""
    return -value if name == "rate" else value


def _attributes(toxic: Toxic) -> int:
    """How many attributes aren't 0, with a toxicity that isn't the whole."""
    return sum(value != 0 for value in toxic.attributes().values()) + (toxic.toxicity is not None)
