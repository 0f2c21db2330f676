"""`Case`: a script that a client is run under, with the proxies whose connects are refused."""
from dataclasses import dataclass, replace
from functools import cached_property
from typing import FrozenSet, Iterable, List, Mapping, Optional, Sequence, Tuple

from ..fault_points import FaultPoint
from ..rules import Rule, script_text, toml_value
from ..smallness import size_of
from ..toxics import Latency, LimitData, ResetPeer, Timeout, Toxic
from .words import REFUSED, WORD_OF_TYPE

# The first line of a script.
HEAD = script_text(())
# The toxics that end a stream.
ENDING = (LimitData, ResetPeer, Timeout)
# A fault in words: its word, its stream, and the number of its connection, or 0 for all.
Place = Tuple[str, str, int]


@dataclass(frozen=True)
class Case:
    """Rules by the names of the upstreams, and the upstreams that refuse connects. `point` is the fault of a sweep that they are."""

    rules: Tuple[Rule, ...] = ()
    refused: FrozenSet[str] = frozenset()
    point: Optional[FaultPoint] = None

    @classmethod
    def of(cls, point: FaultPoint) -> "Case":
        """The case of one fault."""
        return cls((point.rule(point.proxy),), point=point)

    @cached_property
    def key(self) -> str:
        """What two equal cases have in common."""
        return "".join([self.script, *sorted(self.refused)])

    @cached_property
    def script(self) -> str:
        """The text of its script."""
        return script_text(self.rules)

    @property
    def size(self) -> Tuple[float, ...]:
        """What is less for a smaller fault. A refused proxy counts for more than a rule."""
        return (len(self.refused), *size_of(self.rules))

    @cached_property
    def places(self) -> List[Place]:
        """The faults in words: those of each rule, with its first connection, or 0 where it has no end."""
        found = [(REFUSED, "upstream", 0) for _ in self.refused]
        for rule in self.rules:
            number = 0 if rule.last is None else rule.first
            found += [(word_of(toxic), toxic.stream, number) for toxic in rule.toxics]
        return found

    def calls(self, proxy: str, number: int) -> bool:
        """Whether a fault of this connection can be added: no rule reaches it, and there are some."""
        reached = [rule for rule in self.rules if rule.proxy == proxy and (rule.last is None or rule.last >= number)]
        return bool(self.rules) and not reached and not self.refused

    @cached_property
    def delays(self) -> bool:
        """Whether it may hold something back that comes later: all but what ends a stream at once."""
        return any(not isinstance(toxic, ENDING) for rule in self.rules for toxic in rule.toxics)


def word_of(toxic: Toxic) -> str:
    """The word of a toxic: a latency that has a window is `late`."""
    if isinstance(toxic, Latency) and (toxic.until or toxic.from_):
        return "late"
    return WORD_OF_TYPE[toxic.type]


def batch_script(cases: Iterable[Tuple[Case, Mapping[str, str]]]) -> str:
    """The script of some cases, each with the names of its run's proxies in place of those of the upstreams."""
    return HEAD + "".join(_renamed(case.script[len(HEAD) :], names) for case, names in cases)


def _renamed(text: str, names: Mapping[str, str]) -> str:
    """The text of rules on other proxies. Text in a script has no line feed, so a line of one is none of a rule."""
    lines = {f"proxy = {toml_value(name)}": f'proxy = "{other}"' for name, other in names.items()}
    return "\n".join([lines.get(line, line) for line in text.split("\n")])


def with_rules(case: Case, rules: Sequence[Rule]) -> Case:
    """The same with other rules, without those that have no toxic."""
    return replace(case, rules=tuple(rule for rule in rules if rule.toxics), point=None)
