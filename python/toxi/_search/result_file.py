"""Results of searches and sweeps that were written as JSON."""
import json
from pathlib import Path
from typing import Any, Dict, List, Mapping

from .. import __version__
from ..client_results import Result
from ..conversations import StreamBytes
from ..errors import ToxiError
from ..found import Found
from ..sweep_points import swept_of
from ..sweep_table import Sweep
from .about import SEARCH, About
from .memory import Remembered
from .result import Flaky, SearchResult, Tried
# The member of what `toxi-merge` writes of several clients.
CLIENTS = "clients"


def read_results(path: Path) -> List[Result]:
    """The results of a file of `--json`. Raises `ToxiError` where it has none, or was written by another version."""
    try:
        return results_of(json.loads(path.read_text(encoding="utf-8")))
    except ToxiError as error:
        raise ToxiError(f"{path} {error}") from None
    except (OSError, ValueError, KeyError, TypeError, AttributeError) as error:
        raise ToxiError(f"{path} can't be read as a result: {type(error).__name__}: {error}") from None


def results_of(members: Mapping[str, Any]) -> List[Result]:
    """The results of a JSON object: of one client, or of several. Raises `ToxiError` for one of another version, and other exceptions for what is none."""
    if CLIENTS in members:
        return [result for each in members[CLIENTS] for result in results_of(each)]
    about = members.get("about")
    if about is None:
        raise ToxiError("doesn't say what it is of: it was written by another version of toxi")
    if about["version"] != __version__:
        raise ToxiError(f"was written by toxi {about['version']}, and this is {__version__}")
    known = About.of(about)
    return [_search_of(members, known) if known.kind == SEARCH else _sweep_of(members, known)]


def _search_of(members: Mapping[str, Any], about: About) -> SearchResult:
    return SearchResult(
        tuple(map(_found_of, members["found"])),
        tuple(Flaky(**each) for each in members["flaky"]),
        tuple(Tried(**each) for each in members["tried"]),
        members["ended_by"],
        tuple(members["phases"]),
        tuple(members["limits"]),
        int(members["runs"]),
        float(members["seconds"]),
        tuple(Remembered(Path(each["file"]), each["kind"], each["state"]) for each in members["remembered"]),
        about,
    )


def _found_of(members: Mapping[str, Any]) -> Found:
    """What was found, without what its connections met, which the page of its folder has."""
    names = ("kind", "detail", "where", "hint", "script", "failed", "repeated", "seed", "runs", "seconds")
    known: Dict[str, Any] = {name: members[name] for name in names}
    remembered = members["remembered"]
    return Found(
        **known,
        connections=(),
        folder=Path(members["folder"]),
        refused=tuple(members["refused"]),
        remembered=None if remembered is None else Path(remembered),
        places=tuple((word, stream, int(number)) for word, stream, number in members["places"]),
    )


def _sweep_of(members: Mapping[str, Any], about: About) -> Sweep:
    streams = [StreamBytes.of_members(stream) for stream in members["recorded"]]
    counts = int(members["chosen"]), int(members["possible"]), float(members["seconds"])
    return Sweep(streams, list(swept_of(members["points"])), *counts, members["ended"], about.within, about)
