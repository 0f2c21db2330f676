"""What a terminal was given."""
import contextlib
import os
from typing import Iterator


def read_all(terminal: int) -> str:
    """All that was written to a terminal whose other end is closed. The kernel hands it on in pieces, and then answers EIO."""
    return b"".join(_pieces(terminal)).decode().replace("\r\n", "\n")


def _pieces(terminal: int) -> Iterator[bytes]:
    with contextlib.suppress(OSError):
        while piece := os.read(terminal, 65536):
            yield piece
