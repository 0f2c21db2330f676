"""`About`: what a result is of, by which `toxi-merge` tells the shards of one search from those of another."""
from dataclasses import dataclass, field
from typing import Any, Dict, Mapping, Optional, Tuple

from .. import __version__
from .shards import WHOLE_TEXT, Shard

SEARCH, SWEEP = "search", "sweep"
# What the shards of one search have in common, beside what they are of.
COMMON = ("seed", "within", "upstreams", "conversation")


@dataclass(frozen=True)
class About:
    """`kind` is `search` or `sweep`, and `client` the client's name, or its command. `options` are those that decide what is tried and what is right.
    `conversation` is the sum of the file that it was read from, or empty."""

    kind: str
    client: str
    seed: int
    within: float
    upstreams: Tuple[str, ...]
    options: Mapping[str, Any] = field(default_factory=dict)
    conversation: str = ""
    shard: Shard = Shard()
    version: str = __version__

    @property
    def group(self) -> Tuple[str, str]:
        """What the shards of one client share."""
        return self.kind, self.client

    def difference(self, other: "About") -> Optional[str]:
        """In what another shard differs that it must have in common with this one, in words. None where it is one of the same search."""
        for name in COMMON:
            own, others = getattr(self, name), getattr(other, name)
            if own != others:
                return f"its {name} {_verb(name)} {_shown(others)}, not {_shown(own)}"
        for name in {**self.options, **other.options}:
            if self.options.get(name) != other.options.get(name):
                return f"its option {name} is {_shown(other.options.get(name))}, not {_shown(self.options.get(name))}"
        return None if self.shard.of == other.shard.of else f"it is one of {other.shard.of} shards, not of {self.shard.of}"

    def members(self) -> Dict[str, object]:
        """As a JSON object."""
        return {**vars(self), "upstreams": list(self.upstreams), "options": dict(self.options), "shard": str(self.shard)}

    @classmethod
    def of(cls, members: Mapping[str, Any]) -> "About":
        """Of a JSON object. Raises `KeyError`, `TypeError` or `ValueError` for another one."""
        known: Dict[str, Any] = {name: members[name] for name in ("kind", "client", "seed", "within", "options", "conversation", "version")}
        if known["kind"] not in (SEARCH, SWEEP):
            raise ValueError(f"no kind {known['kind']!r}")
        return cls(**known, upstreams=tuple(members["upstreams"]), shard=Shard.parsed(members.get("shard", WHOLE_TEXT)))


def _verb(name: str) -> str:
    return "are" if name.endswith("s") else "is"


def _shown(value: object) -> str:
    texts = map(str, value) if isinstance(value, (list, tuple)) else [str(value)]
    return ", ".join(texts) or "none"


def plain(value: object) -> object:
    """An option as JSON has it, so that one that was read equals one that wasn't."""
    if isinstance(value, (list, tuple)):
        return [plain(item) for item in value]
    return value if value is None or isinstance(value, (bool, int, float, str)) else str(value)
