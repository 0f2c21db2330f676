"""The command `toxi-merge`: the results of shards, and of several clients, as those of one run."""
import argparse
import sys
from pathlib import Path
from typing import List, Optional, Sequence

from . import __version__
from ._search.merging import merged_files
from .client_command import FOUND, NOTHING, REFUSED, STOPPED
from .client_results import Result, client_of, is_failing
from .errors import ToxiError
from .sweep_table import Sweep
from .sweeping import INTERRUPTED
from .written_results import add_files, write_results

ABOUT = """Joins what toxi-find and toxi-sweep have written by --json. The shards of one client are one result, as of one run without shards, and results of
several clients are one page. All shards must be there once, of the same search: those that are missing, double or foreign are named.

The status is 0 where nothing was found, 1 where something was, 2 where the files can't be joined, and 130 where a run was stopped before it had found
something."""
NAME = "toxi-merge"


def main(words: Optional[Sequence[str]] = None) -> int:
    """Runs the command line. Returns its status."""
    arguments = _parser().parse_args(words)
    try:
        results = merged_files(arguments.files)
        write_results(results, arguments.json, arguments.page, arguments.junit)
    except (ToxiError, OSError) as error:
        print("".join(f"{NAME}: {line}\n" for line in str(error).split("\n")), end="", file=sys.stderr)
        return REFUSED
    print("\n\n".join(_told(result, len(results) > 1) for result in results))
    return _status(results)


def _parser() -> argparse.ArgumentParser:
    usage = f"{NAME} FILE .. [option ..]"
    parser = argparse.ArgumentParser(prog=NAME, usage=usage, description=ABOUT, formatter_class=argparse.RawDescriptionHelpFormatter, allow_abbrev=False)
    parser.add_argument("files", metavar="FILE", nargs="+", type=Path, help="a file that toxi-find, toxi-sweep or toxi-merge has written by --json")
    add_files(parser)
    parser.add_argument("--version", action="version", version=f"{NAME} {__version__}")
    return parser


def _told(result: Result, has_others: bool) -> str:
    """The text of a result, below its client where there are others."""
    return f"{client_of(result)}:\n{result}" if has_others else str(result)


def _status(results: List[Result]) -> int:
    """That of one run which found all of it."""
    if any(map(is_failing, results)):
        return FOUND
    return STOPPED if any(map(_is_stopped, results)) else NOTHING


def _is_stopped(result: Result) -> bool:
    return result.ended == INTERRUPTED if isinstance(result, Sweep) else result.ended_by == "interrupted"


if __name__ == "__main__":
    sys.exit(main())
