"""`Shard`: one part of a search or a sweep that several machines share."""
import heapq
import itertools
import re
from dataclasses import dataclass
from typing import Dict, Hashable, Iterable, Iterator, List, Mapping, Tuple, TypeVar

Item = TypeVar("Item")
Line = TypeVar("Line", bound=Hashable)
WHOLE_TEXT = "1/1"


@dataclass(frozen=True)
class Shard:
    """Shard `number`, from 1, of `of`. The whole is 1 of 1."""

    number: int = 1
    of: int = 1

    @classmethod
    def parsed(cls, text: str) -> "Shard":
        """The shard of a text such as `2/8`. Raises `ValueError` for another text."""
        found = re.fullmatch(r"([1-9]\d*)/([1-9]\d*)", text)
        if found is None or int(found[1]) > int(found[2]):
            raise ValueError(f"{text!r} isn't a shard K/N with K from 1 to N")
        return cls(int(found[1]), int(found[2]))

    def __str__(self) -> str:
        return f"{self.number}/{self.of}"

    @property
    def is_whole(self) -> bool:
        """Whether there is no other shard."""
        return self.of == 1

    def part(self, items: Iterable[Item]) -> Iterator[Item]:
        """Each `of`-th item. All of them are read."""
        return itertools.islice(items, self.number - 1, None, self.of)

    def lines(self, sizes: Mapping[Line, int]) -> List[Line]:
        """The lines that are this shard's whole, by the sizes of all: the largest goes first, each to the shard that has the least so far."""
        shards: List[Tuple[int, int]] = [(0, number) for number in range(1, self.of + 1)]
        taken: Dict[Line, int] = {}
        for line in sorted(sizes, key=lambda line: -sizes[line]):
            size, number = shards[0]
            taken[line] = number
            heapq.heapreplace(shards, (size + sizes[line], number))
        return [line for line in sizes if taken[line] == self.number]
