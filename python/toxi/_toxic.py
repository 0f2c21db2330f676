"""What every toxic of a rule has."""
from dataclasses import dataclass, fields
from typing import Any, ClassVar, Dict, Literal, Optional, Union

from .reprs import repr_without_defaults
from .thousandths import warn_of_percent

Toxicity = Union[int, float, str]
Stream = Literal["upstream", "downstream"]
# Stands for an attribute that has to be given.
REQUIRED: Any = object()
# Attributes that stand in a script only where they aren't 0.
OMITTED_AT_ZERO = ("until", "from", "after")
TOXICITY_OF_ONE = (
    "toxicity=1 has two meanings: write toxicity=1.0, or leave it out, for every link, and toxicity=0.001 for one link in a thousand"
)


@dataclass(frozen=True, repr=False)
class Toxic:
    """What every toxic has.

    `name` is `<type>_<stream>` if absent. `stream` is `upstream` or `downstream`. `toxicity` is the chance that a link
    meets the toxic: a float of 0.0 to 1.0 in thousandths such as `0.25`, the same as a text, or whole thousandths, 0 to 1000;
    absent, every link meets it. The whole number 1 is refused by a ValueError, since it reads as both 1.0 and 0.001, and one of 2 to 100
    is a `ToxiWarning`, since it reads as percent too: `thousandths(30)` says what is meant.

    Raises `TypeError` for a value without its name, for a name that the toxic doesn't have, and where one that it needs is missing.
    """

    type: ClassVar[str]

    name: Optional[str] = None
    stream: Stream = "downstream"
    toxicity: Optional[Toxicity] = None

    # Dataclasses have keyword-only fields from Python 3.10 on.
    def __new__(cls, *values: Any, **named: Any) -> "Toxic":
        if values:
            raise TypeError(f"give the attributes of {cls.__name__} by keyword: {', '.join(map(repr, values))} has no name")
        known = [field.name for field in fields(cls)]
        for name in named:
            if name not in known:
                raise TypeError(f"{cls.__name__} has no {name!r}; it has {', '.join(known)}")
        return super().__new__(cls)

    def __post_init__(self) -> None:
        missing = [field.name for field in fields(self) if getattr(self, field.name) is REQUIRED]
        if missing:
            raise TypeError(f"{type(self).__name__} needs {', '.join(missing)}")
        if type(self.toxicity) is int and self.toxicity == 1:
            raise ValueError(TOXICITY_OF_ONE)
        # The call that makes a toxic stands two levels above: its __init__ calls this.
        warn_of_percent(self.toxicity, stacklevel=3)

    def __repr__(self) -> str:
        return repr_without_defaults(self)

    def attributes(self) -> Dict[str, int]:
        """The attributes by their keys in a script, without those that all toxics have. An `until`, `from` or `after` of 0 is left out."""
        common = {field.name for field in fields(Toxic)}
        # `from` is a word of Python, so its field is `from_`.
        values = {field.name.rstrip("_"): getattr(self, field.name) for field in fields(self) if field.name not in common}
        return {key: value for key, value in values.items() if not (key in OMITTED_AT_ZERO and type(value) is int and value == 0)}
