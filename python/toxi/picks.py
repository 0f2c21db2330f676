"""What a numbered connection will meet, as `toxi pick` prints it."""
from dataclasses import dataclass
from typing import Dict, List


@dataclass(frozen=True)
class PickedToxic:
    """A toxic of a connection's chain. `place` counts from 0 on its stream, and `short` can be given to `toxi dry`."""

    stream: str
    place: int
    applied: bool
    short: str
    name: str

    @property
    def type(self) -> str:
        """The type, such as `latency`."""
        return self.short.partition(":")[0]

    @property
    def attributes(self) -> Dict[str, int]:
        """The attributes, and the toxicity in thousandths."""
        pairs = (pair.split("=") for pair in self.short.partition(":")[2].split(",") if pair)
        return {key: int(value) for key, value in pairs}


def picked(stream: str, text: str) -> List[PickedToxic]:
    """The toxics of a pick text, behind its first line."""
    toxics = []
    for line in text.split("\n")[1:-1]:
        place, word, short, name = line.split(" ", 3)
        toxics.append(PickedToxic(stream, int(place), word == "applied", short, name))
    return toxics
