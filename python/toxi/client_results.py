"""What is told of the result of one client, of a search or of a sweep: its name, and how far it came."""
from typing import Union

from ._search.result import SearchResult
from .lines import printed
from .sweep_table import Sweep

Result = Union[SearchResult, Sweep]
# The client of a result that doesn't say what it is of.
UNNAMED = "client"


def client_of(result: Result) -> str:
    """The name of a result's client, or its command."""
    return UNNAMED if result.about is None else safe_text(result.about.client)


def summary_of(result: Result) -> str:
    """How far it came, in a few lines."""
    return "\n".join([*result.summary, *result.left_out]) if isinstance(result, Sweep) else result.summary


def is_failing(result: Result) -> bool:
    """Whether the client is to be mended."""
    return bool(result.failures if isinstance(result, Sweep) else result.found)


def headline_of(result: Result) -> str:
    """What it came to, in a line."""
    if not isinstance(result, Sweep):
        return result.summary
    failing = len(result.failures)
    return f"{result.summary[-1]}, {f'rows that are to be mended: {failing}' if failing else 'nothing is to be mended'}"


def safe_text(text: str) -> str:
    """A text that XML can have, line by line."""
    return "\n".join(map(printed, text.split("\n"))).encode(errors="backslashreplace").decode()
