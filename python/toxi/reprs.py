"""How toxics and rules are shown."""
from dataclasses import fields
from typing import Any


def repr_without_defaults(value: Any) -> str:
    """The dataclass as the call that makes it, without the fields that have their defaults."""
    changed = [(field.name, getattr(value, field.name)) for field in fields(value)]
    defaults = {field.name: field.default for field in fields(value)}
    shown = ", ".join(f"{name}={given!r}" for name, given in changed if given != defaults[name])
    return f"{type(value).__name__}({shown})"
