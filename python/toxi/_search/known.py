"""The failures that a search knows, so that it sets others like them aside."""
from typing import Dict, Iterable, List, Optional, Set

from .cases import Case, Place
from .failures import Failure, FailureKey

# A place that has made the client hang so often isn't tried again.
HANGS_OF_PLACE = 2


class Known:
    """What is known while a search runs.

    `new` are failures that haven't been looked at, and `hangs` those that are shrunk last. A failure whose key was added is set aside.
    """

    def __init__(self) -> None:
        self.new: List[Failure] = []
        self.hangs: List[Failure] = []
        self._keys: Set[FailureKey] = set()
        self._places: Dict[Place, int] = {}

    def add(self, failure: Failure) -> None:
        """It explains others from now on."""
        self._keys.add(failure.key)

    def explains(self, failure: Failure, also: Iterable[Failure] = ()) -> bool:
        """Whether one that was added, or one of `also`, explains a failure."""
        return any(failure.is_explained_by(key) for key in [*self._keys, *(each.key for each in also)])

    def is_new(self, failure: Failure) -> bool:
        """Whether nothing explains it, of what waits neither."""
        return not self.explains(failure, [*self.new, *self.hangs])

    def smallest_new(self) -> Optional[Failure]:
        """The smallest of the new ones that nothing explains by now. It is the first of them until it is dropped."""
        self.new.sort(key=_size)
        while self.new and self.explains(self.new[0]):
            self.new.pop(0)
        return self.new[0] if self.new else None

    def drop_smallest(self) -> None:
        """The smallest isn't new any more."""
        self.new.pop(0)

    def smallest_hang(self) -> Optional[Failure]:
        """The smallest hang that nothing explains by now. It doesn't wait any more."""
        self.hangs.sort(key=_size)
        while self.hangs:
            failure = self.hangs.pop(0)
            if not self.explains(failure):
                return failure
        return None

    def note_hang(self, case: Case) -> None:
        """Counts a hang for each place of its case."""
        for place in case.places:
            self._places[place] = self._places.get(place, 0) + 1

    def hangs_of(self, case: Case) -> int:
        """How often the client has hung at a place of a case, at most."""
        return max((self._places.get(place, 0) for place in case.places), default=0) if self._places else 0


def _size(failure: Failure) -> "tuple[float, ...]":
    return failure.case.size
