"""The standard input of a child that ends when this process does, whatever children of this one live on."""
import contextlib
import os
import weakref
from typing import Iterator, Optional


class HeldInput:
    """A pipe whose writing end this process alone has, so that it ends with this process. Nothing is written.

    Python's descriptors are closed in a child that is another program. A fork without `exec` has a copy, which is closed there.
    """

    def __init__(self) -> None:
        self._writing: Optional[int] = None
        _HELD.add(self)

    @contextlib.contextmanager
    def lent(self) -> Iterator[int]:
        """The reading end, while a child is started with it. Where that fails, the writing end is closed too."""
        reading, self._writing = os.pipe()
        try:
            yield reading
        except BaseException:
            self.close()
            raise
        finally:
            os.close(reading)

    def close(self) -> None:
        """Ends the input. A second call does nothing."""
        writing, self._writing = self._writing, None
        if writing is not None:
            os.close(writing)


_HELD: "weakref.WeakSet[HeldInput]" = weakref.WeakSet()


def _close_copies() -> None:
    for held in list(_HELD):
        held.close()


os.register_at_fork(after_in_child=_close_copies)
