"""Shrinks a script under which a client is wrong: fewer rules, toxics and connections, simpler kinds, smaller numbers."""
from dataclasses import fields, replace
from typing import Callable, Dict, Iterator, List, Optional, Sequence, Set, Tuple

from ..rules import Rule
from ..smallness import KINDS
from ..toxics import Latency, LimitData, ResetPeer, Slicer, Timeout, Toxic
from .cases import Case, with_rules
from .conversation import Conversation
from .words import POSITIONS

# Which of some cases fails in the way that is looked for: its place among them, or None.
FirstFailing = Callable[[Sequence[Case]], Optional[int]]
STREAMS = ("downstream", "upstream")


def shrunk(case: Case, conversation: Conversation, takes: Callable[[Case], bool], first_failing: FirstFailing) -> Iterator[Case]:
    """Smaller and smaller cases that fail, each as soon as it is known. They are of those that `takes` is true of."""
    tried: Set[str] = {case.key}
    while True:
        smaller = [each for each in _smaller(case, conversation) if each.key not in tried and each.size < case.size and takes(each)]
        distinct = list({each.key: each for each in smaller}.values())
        place = first_failing(distinct) if distinct else None
        if place is None:
            return
        tried.update(each.key for each in distinct[: place + 1])
        case = distinct[place]
        yield case


def _smaller(case: Case, conversation: Conversation) -> Iterator[Case]:
    """What is smaller than a case, the smallest steps last."""
    yield from (replace(case, refused=case.refused - {name}, point=None) for name in sorted(case.refused))
    rules = case.rules
    for place in range(len(rules)):
        yield with_rules(case, [*rules[:place], *rules[place + 1 :]])
    for place, rule in enumerate(rules):
        for other in filter(_has_own_names, _smaller_rules(rule, conversation)):
            yield with_rules(case, [*rules[:place], other, *rules[place + 1 :]])
    if case.refused:
        yield with_rules(replace(case, refused=frozenset()), [*rules, *(Rule(name, [LimitData()]) for name in sorted(case.refused))])


def _smaller_rules(rule: Rule, conversation: Conversation) -> Iterator[Rule]:
    for place in range(len(rule.toxics)):
        yield replace_toxics(rule, [*rule.toxics[:place], *rule.toxics[place + 1 :]])
    for first, last in _spans(rule):
        yield Rule(rule.proxy, rule.toxics, first=first, last=last)
    for place, toxic in enumerate(rule.toxics):
        for other in _smaller_toxics(toxic, _boundaries(rule, conversation)):
            yield replace_toxics(rule, [*rule.toxics[:place], other, *rule.toxics[place + 1 :]])


def _has_own_names(rule: Rule) -> bool:
    """Whether no two toxics have one name: by default it is made of type and stream."""
    names = [toxic.name or (toxic.type, toxic.stream) for toxic in rule.toxics]
    return len(set(names)) == len(names)


def replace_toxics(rule: Rule, toxics: Sequence[Toxic]) -> Rule:
    """The rule with other toxics."""
    return Rule(rule.proxy, toxics, first=rule.first, last=rule.last)


def _spans(rule: Rule) -> List[Tuple[int, Optional[int]]]:
    """Fewer connections, and earlier ones."""
    found: List[Tuple[int, Optional[int]]] = [(1, 1), (rule.first, rule.first), (1, 2), (2, 2)]
    if rule.first > 1:
        found.append((1, rule.last))
    if rule.last is not None and rule.last > rule.first:
        found += [(rule.first, rule.last - 1), (rule.first + 1, rule.last)]
    return found


def _boundaries(rule: Rule, conversation: Conversation) -> Dict[str, List[int]]:
    streams = conversation.by_key
    number = min(rule.first, conversation.connections(rule.proxy))
    return {stream: streams[rule.proxy, number, stream].boundaries for stream in STREAMS if (rule.proxy, number, stream) in streams}


def _smaller_toxics(toxic: Toxic, boundaries: Dict[str, List[int]]) -> Iterator[Toxic]:
    """Simpler kinds first, on either stream, at the start, at a boundary and at the same position. Then without an attribute, and with smaller numbers."""
    if toxic.toxicity is not None:
        yield replace(toxic, toxicity=None)
    position = getattr(toxic, POSITIONS[toxic.type]) if toxic.type in POSITIONS else 0
    for stream in dict.fromkeys(("downstream", toxic.stream)):
        for offset in dict.fromkeys([0, *boundaries.get(stream, [])[:8], position]):
            endings: List[Toxic] = [LimitData(stream=stream, bytes=offset), ResetPeer(stream=stream, after=offset), Timeout(stream=stream, after=offset)]
            yield from (ending for ending in endings if KINDS.index(ending.type) <= KINDS.index(toxic.type))
    for other in (Latency(stream=toxic.stream, latency=_time(toxic)),) if toxic.type in ("slicer", "bandwidth", "slow_close") else ():
        yield other
    if toxic.stream != "downstream":
        yield replace(toxic, stream="downstream")
    for name in [field.name for field in fields(toxic) if isinstance(getattr(toxic, field.name), int)]:
        for number in _lower(name, getattr(toxic, name), toxic, boundaries.get(toxic.stream, [])):
            yield replace(toxic, **{name: number})


def _time(toxic: Toxic) -> int:
    return toxic.delay // 1000 if isinstance(toxic, Slicer) else int(getattr(toxic, "delay", 100))


def _lower(name: str, number: int, toxic: Toxic, boundaries: Sequence[int]) -> Iterator[int]:
    """Smaller numbers: positions down to the one below, times by halves, a rate upward by tens."""
    if name == "rate":
        yield from (rate for rate in (1_000_000, number * 10) if number < rate <= 1_000_000)
        return
    least = 1 if name == "average_size" else 0
    if number <= least:
        return
    yield least
    if name not in POSITIONS.values() and name != "average_size":
        yield from (value for value in (number // 4, number // 2, _round(number)) if value < number)
        return
    yield from (boundary for boundary in boundaries if least < boundary < number)
    step = number
    while step > 1:
        step = step // 2
        yield number - step


def _round(number: int) -> int:
    """The number with its first digit alone."""
    digits: int = 10 ** (len(str(number)) - 1)
    return number // digits * digits
