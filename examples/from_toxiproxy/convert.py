"""A setup as proxies and rules."""
import decimal
import re
from dataclasses import fields
from typing import Any, Dict, List, Optional, Set, Tuple, Type

from toxi import Bandwidth, Latency, LimitData, Proxy, ResetPeer, Rule, Slicer, SlowClose, Timeout, Toxic
from toxi.lines import printed
from toxi.rules import toml_value
from toxi.toxics import MAX_MS

from .setups import AGE, Entry, Setup

KINDS: Tuple[Type[Toxic], ...] = (Bandwidth, Latency, LimitData, ResetPeer, Slicer, SlowClose, Timeout)
TYPES = {kind.type: kind for kind in KINDS}
# A whole toxicity, in thousandths.
WHOLE = 1000


def converted(setup: Setup) -> Tuple[List[Proxy], List[Rule]]:
    """The proxies and the rules. Each proxy with toxics has one rule, for all its connections."""
    proxies, rules = [], []
    for name, entry in setup.proxies.items():
        enabled = entry.get("enabled", True) is not False
        listen = entry.get("listen") or "localhost:0"
        proxies.append(Proxy(name, entry.get("upstream", ""), listen, enabled))
        if not enabled:
            setup.miss(f"proxy {name}", "it is down, and nothing takes it up while toxi runs; it has `enabled` false")
        toxics = [_toxic(toxic, f"proxy {name}, toxic {number}", setup) for number, toxic in enumerate(entry["toxics"], 1)]
        kept = [toxic for toxic in toxics if toxic is not None]
        if kept:
            rules.append(Rule(name, kept))
    return proxies, rules


def comments(setup: Setup) -> List[str]:
    """What was noted, and a line for each toxic that was added to a running proxy: which `from` would say it."""
    lines = [f"# {printed(note)}" for note in setup.notes]
    for name, entry in setup.proxies.items():
        for number, toxic in enumerate(entry["toxics"], 1):
            kind, millis = TYPES.get(str(toxic.get("type"))), toxic.get(AGE, 0)
            if hasattr(kind, "from_") and 0 < millis <= MAX_MS:
                age = f"{millis / 1000:g} s"
                added = f"# Proxy {toml_value(name)}, toxic {number}: added to the running proxy, after {age}."
                lines.append(f"{added} With from = {millis} it begins when a link is {age} old.")
    return lines


def _toxic(entry: Entry, place: str, setup: Setup) -> Optional[Toxic]:
    """A toxic, or None for one that has no counterpart."""
    kind = TYPES.get(str(entry.get("type")))
    if kind is None:
        setup.miss(place, f"there is no toxic `{entry.get('type')}`")
        return None
    toxicity = _toxicity(entry.get("toxicity"), place, setup)
    known = _attributes(kind)
    attributes: Dict[str, Any] = {}
    for key, value in (entry.get("attributes") or {}).items():
        if key not in known:
            setup.miss(place, f"`{kind.type}` has no attribute `{key}`")
        elif not re.fullmatch(r"\d+", str(value)):
            setup.miss(place, f"`{key}` is {value}, no whole number")
            return None
        else:
            attributes[key] = int(value)
    if kind is Bandwidth and attributes.get("rate") == 0:
        setup.miss(place, "`rate` is 0, which limits nothing in Toxiproxy: the toxic is left out")
        return None
    # The program refuses another one.
    stream: Any = (entry.get("stream") or "downstream").lower()
    return kind(name=entry.get("name") or None, stream=stream, toxicity=toxicity, **attributes)


def _attributes(kind: Type[Toxic]) -> Set[str]:
    """The attributes of a type that Toxiproxy has too: those that stand in every script."""
    return {field.name for field in fields(kind)} - {field.name for field in fields(Toxic)} - {"until", "from_", "after"}


def _toxicity(value: object, place: str, setup: Setup) -> Optional[float]:
    """A toxicity in whole thousandths, 0.0 to 1.0. None where it is 1 or absent."""
    if value is None:
        return None
    try:
        thousandths = decimal.Decimal(str(value)) * WHOLE
        whole = int(thousandths.to_integral_value())
    except (decimal.InvalidOperation, ValueError, OverflowError):
        setup.miss(place, f"the toxicity {value} is no number")
        return None
    whole = min(max(whole, 0), WHOLE)
    if whole != thousandths:
        never = ", so no connection meets the toxic" if whole == 0 else ""
        setup.miss(place, f"the toxicity {value} isn't a whole number of thousandths, 0 to 1000; {whole} are taken{never}")
    return None if whole == WHOLE else whole / WHOLE
