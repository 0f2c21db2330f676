"""Rules as dataclasses, and the script that they are, a document of TOML in version 2."""
import json
import math
from dataclasses import dataclass
from typing import Iterable, List, Optional, Tuple, Union

from .reprs import repr_without_defaults
from .thousandths import Thousandths
from .toxics import Toxic, Toxicity


@dataclass(frozen=True, init=False, repr=False)
class Rule:
    """The toxics that the connections `first` to `last` of a proxy meet, counted from 1. Without `last` there is no upper end.

    A connection meets the first rule that covers it, and no other. Raises `TypeError` where `toxics` isn't some toxics.
    """

    proxy: str
    toxics: Tuple[Toxic, ...] = ()
    first: int = 1
    last: Optional[int] = None

    def __init__(self, proxy: str, toxics: Iterable[Toxic] = (), *, first: int = 1, last: Optional[int] = None) -> None:
        if not isinstance(toxics, Iterable):
            raise TypeError(f"the toxics of a rule are a list: Rule({proxy!r}, [..], first=1, last=2), not {toxics!r}")
        kept = tuple(toxics)
        for toxic in kept:
            if not isinstance(toxic, Toxic):
                raise TypeError(f"{toxic!r} is no toxic")
        for name, value in (("proxy", proxy), ("toxics", kept), ("first", first), ("last", last)):
            object.__setattr__(self, name, value)

    def __repr__(self) -> str:
        return repr_without_defaults(self)


def script_text(rules: Iterable[Rule]) -> str:
    """The script with these rules, in their order. Its chains have 32 lanes."""
    lines = ["version = 2"]
    for rule in rules:
        lines += ["", "[[rule]]", _setting(rule, "proxy", rule.proxy), _setting(rule, "first", rule.first)]
        if rule.last is not None:
            lines.append(_setting(rule, "last", rule.last))
        for toxic in rule.toxics:
            lines += _toxic_lines(toxic)
    return "\n".join(lines) + "\n"


def _toxic_lines(toxic: Toxic) -> List[str]:
    lines = ["", "[[rule.toxic]]", f"type = {toml_value(toxic.type)}"]
    if toxic.name is not None:
        lines.append(_setting(toxic, "name", toxic.name))
    lines.append(_setting(toxic, "stream", toxic.stream))
    if toxic.toxicity is not None:
        lines.append(_setting(toxic, "toxicity", _toxicity(toxic.toxicity)))
    attributes = ", ".join(_setting(toxic, name, value) for name, value in toxic.attributes().items())
    return [*lines, f"attributes = {{ {attributes} }}"]


def _setting(table: Union[Rule, Toxic], key: str, value: object) -> str:
    """A key of a rule or a toxic with its value."""
    try:
        return f"{key} = {toml_value(value)}"
    except TypeError:
        raise TypeError(f"{key} of {table!r} is {value!r}, which can't stand in a script") from None


def _toxicity(value: Toxicity) -> Toxicity:
    """A float as the text of its thousandths: 0.1 + 0.2 is `0.3`. One that isn't thousandths stays as it is, and the program refuses it.

    What `thousandths` made is such a text too: the number 1 would be told as one that seldom applies.
    """
    if isinstance(value, Thousandths):
        return repr(value / 1000)
    if not isinstance(value, float):
        return value
    rounded = round(value, 3)
    return repr(rounded if math.isclose(value, rounded, abs_tol=1e-9) else value)


def toml_value(value: object) -> str:
    """A value as TOML. A number of a wrong kind is written too: the program names its place."""
    if isinstance(value, str):
        # JSON escapes are TOML's, but JSON leaves U+007F as it is.
        return json.dumps(value, ensure_ascii=False).replace("\x7f", "\\u007f")
    if isinstance(value, (bool, int, float)):
        return str(value).lower()
    raise TypeError(f"{value!r} can't stand in a script")
