"""The rules as they are kept, and where in them something stands that the program names by numbers."""
import re
from typing import Iterable, List, Sequence, Union

from .rules import Rule

# A script's text, or its rules.
Rules = Union[str, Sequence[Rule]]


def kept_rules(given: Union[str, Iterable[Rule]]) -> Rules:
    """Rules as they are kept. Raises `TypeError` for what is neither a script's text nor some rules."""
    if not isinstance(given, (str, Iterable)):
        raise TypeError(f"rules are a list of Rule, or the text of a script, not {given!r}")
    if isinstance(given, str):
        return given
    kept = list(given)
    for rule in kept:
        if not isinstance(rule, Rule):
            raise TypeError(f"{rule!r} is no Rule: Rule('shop', [..])")
    return kept


def place_of(rules: Rules, rule: int, toxic: int) -> str:
    """A rule or its toxic in words, both counted from 1: a toxic of 0 stands for the rule itself, and a rule of 0 for the script."""
    if rule == 0:
        return "the script itself"
    place = f"toxic {toxic} of rule {rule}" if toxic else f"rule {rule}"
    shown = _shown_in_text(rules, rule, toxic) if isinstance(rules, str) else _shown_in_rules(rules, rule, toxic)
    return f"{place}: {shown}" if shown else place


def _shown_in_rules(rules: Sequence[Rule], rule: int, toxic: int) -> str:
    return repr(rules[rule - 1].toxics[toxic - 1] if toxic else rules[rule - 1])


def _shown_in_text(text: str, rule: int, toxic: int) -> str:
    """The line of the table's header, if the script is written with headers."""
    headers: List[List[int]] = []
    for number, line in enumerate(text.split("\n"), 1):
        if re.match(r"\s*\[\[\s*rule\s*\]\]", line):
            headers.append([number])
        elif re.match(r"\s*\[\[\s*rule\s*\.\s*toxic\s*\]\]", line) and headers:
            headers[-1].append(number)
    if rule <= len(headers) and toxic < len(headers[rule - 1]):
        return f"line {headers[rule - 1][toxic]} of the script"
    return ""
