"""The command `toxi-find`: the smallest faults under which a command is wrong."""
import argparse
import sys
from functools import partial
from pathlib import Path
from typing import List, Optional

from ._search.about import SEARCH
from ._search.drawing import DrawnFaults
from ._search.engine import Engine
from ._search.memory import Memory
from ._search.result import SearchResult
from ._search.search import LIMITS, numbered
from ._search.searching import SearchLimits
from ._search.words import SEARCHED
from .base import STREAMS
from .batches import ClientSetup
from .client_arguments import about_of, client_parser, given_conversation, judge_maker, keep_conversation, positive, read_client_arguments
from .client_command import FOUND, NOTHING, REFUSED, STOPPED, take_signals
from .client_source import CommandSource
from .errors import ToxiError
from .find_progress import ProgressLine
from .outcomes import Startable
from .persistent_client import PersistentClient
from .shell_client import ShellClient, before_of
from .smallness import KINDS
from .written_results import write_results

ABOUT = """Runs a command under faults until some break it, shrinks each to the smallest that still does, and tells how to see it again: faults at the
boundaries of its conversation, late answers, outages, and drawn ones.

The command finds the address of the proxy before each upstream in TOXI_NAME, as host:port, and in its words as {NAME}, {NAME.host} and {NAME.port}. Without
a fault its status must be 0. Under a fault 0 is right too, --allow-status names statuses of failures that may be, and every other status and a run past
--within is found. Its processes are ended then.

The status is 0 where nothing was found, 1 where something was, 2 where the search can't be made, and 130 where it was stopped before."""
DEFAULT_FOLDER = "toxi-found"
# The options of this command alone that decide what is tried.
OPTIONS = ("runs", "stream", "kinds", "trickle", "persistent")
NAME = "toxi-find"


def main(words: Optional[List[str]] = None) -> int:
    """Runs the command line. Returns its status."""
    arguments, command = read_client_arguments(_parser(), sys.argv[1:] if words is None else words)
    take_signals()
    line = ProgressLine(sys.stderr)
    client: Startable = PersistentClient(tuple(command)) if arguments.persistent else ShellClient(tuple(command))
    try:
        if arguments.keep_conversation is not None:
            return _told(keep_conversation(_setup(arguments, client), judge_maker(arguments, command), arguments.keep_conversation), NOTHING, line)
        result = _search(arguments, command, client, line)
    except KeyboardInterrupt:
        return _told(f"stopped, nothing found by {line.runs} runs", STOPPED, line)
    except (ToxiError, ModuleNotFoundError, ValueError, OSError) as error:
        return _told(f"{NAME}: {error}", REFUSED, line)
    finally:
        client.close()
    status = _tell(result, arguments, line)
    # What was found is told, whatever can't be written.
    try:
        write_results([result], arguments.json, arguments.page, arguments.junit)
    except OSError as error:
        return _told(f"{NAME}: {error}", REFUSED, line)
    return status


def _tell(result: SearchResult, arguments: argparse.Namespace, line: ProgressLine) -> int:
    """Prints what the search came to. Returns its status."""
    if not result.found and result.ended_by == "interrupted":
        return _told(f"stopped, nothing found by {line.runs} runs", STOPPED, line)
    if not result.found:
        return _told(_nothing_found(result, arguments), NOTHING, line)
    line.end()
    for each in result.remembered:
        print(each)
    print("\n\n".join(map(str, result.found)))
    return FOUND


def _parser() -> argparse.ArgumentParser:
    parser = client_parser(NAME, ABOUT, SEARCHED, LIMITS.budget, LIMITS.max_found)
    parser.add_argument("--runs", metavar="N", type=positive, default=LIMITS.runs, help="how many faults are drawn behind the others (default: %(default)s)")
    parser.add_argument("--stream", choices=STREAMS, help="faults of this stream alone")
    parser.add_argument("--kind", dest="kinds", action="append", choices=KINDS, help="toxics of this type alone. Repeatable")
    parser.add_argument("--remember", metavar="DIR", type=Path, help="write each fault into DIR too, and run first what --name has there")
    about = "keep the command for many runs: each is a line of JSON on its standard input, answered by a line `toxi-answer RUN STATUS`"
    parser.add_argument("--persistent", action="store_true", help=about)
    parser.add_argument("--trickle", action="store_true", help="draws streams that are slower than --within allows, too")
    return parser


def _setup(arguments: argparse.Namespace, client: Startable) -> ClientSetup:
    options = {"seed": arguments.seed, "program": arguments.program}
    return ClientSetup(arguments.upstreams, client, arguments.within, before_of(arguments.before), arguments.jobs, options)


def _search(arguments: argparse.Namespace, command: List[str], client: Startable, line: ProgressLine) -> SearchResult:
    kinds, words = (None if given is None else tuple(given) for given in (arguments.kinds, arguments.faults))
    given = given_conversation(arguments)
    return Engine(
        _setup(arguments, client),
        judge_maker(arguments, command),
        CommandSource(command, arguments.allowed_statuses, arguments.before, arguments.check, arguments.persistent),
        arguments.seed,
        Path.cwd(),
        DrawnFaults(arguments.connections, arguments.stream, kinds, arguments.trickle, words),
        SearchLimits(arguments.runs, arguments.budget, arguments.max_found),
        partial(_folder, arguments.folder),
        line,
        None if arguments.remember is None else Memory.of(arguments.remember, arguments.name, arguments.upstreams),
        about=about_of(SEARCH, arguments, command, OPTIONS, given),
        given=given,
    ).run()


def _nothing_found(result: SearchResult, arguments: argparse.Namespace) -> str:
    """What is told where nothing was found. An early end says less of the client."""
    told = f"nothing found by {result.runs} runs in {result.seconds:.1f} s"
    if result.ended_by == "budget":
        told = f"nothing found by {result.runs} runs: the budget of {arguments.budget:g} s was used up; phases done: {', '.join(result.phases) or 'none'}"
    if result.ended_by == "client_stuck":
        told += ": commands didn't return"
    told += "".join(f": {each.kind} came, but in no repetition" for each in result.flaky[:1])
    return "\n".join([*map(str, result.remembered), told])


def _folder(given: Optional[Path], number: int) -> Optional[Path]:
    """The folder of what is found by its number: those of the one that is given, or free ones."""
    return numbered(given, number) if given is not None else _free_folder()


def _free_folder() -> Path:
    """The first of `toxi-found`, `toxi-found-2` and so on that isn't there. Those of what was found before are."""
    number, folder = 1, Path(DEFAULT_FOLDER)
    while folder.exists():
        number += 1
        folder = Path(f"{DEFAULT_FOLDER}-{number}")
    return folder


def _told(text: str, status: int, line: ProgressLine) -> int:
    line.end()
    print(text, file=sys.stdout if status == NOTHING else sys.stderr)
    return status


if __name__ == "__main__":
    sys.exit(main())
