"""`toxi-sweep`: sweeps a command, and prints the table."""
import functools
import shlex
import sys
from argparse import ArgumentTypeError, Namespace
from pathlib import Path
from typing import List, Optional, Sequence

from ._search.about import SWEEP
from ._search.conversation import Conversation
from .batches import ClientSetup
from .chosen_points import ChosenPoints, repeated_points
from .client_arguments import about_of, client_parser, given_conversation, judge_maker, keep_conversation, positive, read_client_arguments
from .client_command import FOUND, NOTHING, REFUSED, STOPPED, take_signals
from .errors import ToxiError
from .fault_points import DELAYS, FAULTS, FaultPoint
from .kept_sweep import KeptSweep
from .shell_client import ShellClient, before_of
from .sweep_table import Sweep
from .sweeping import MOST, SWEPT, Sweeping, chooser, progress_text
from .terminal_line import TerminalLine
from .written_results import write_results

ABOUT = """Runs a command behind proxies that end its conversation behind each byte of each stream of each connection, and prints what it came to.

The command finds the address of each proxy in TOXI_<NAME>: the name in upper case, with `_` for other characters, and in its words as {NAME}, {NAME.host} and
{NAME.port}. Status 0 is right, --allow-status names one with which it may fail, and all else is to be mended. Its output isn't shown.

The status is 0 where nothing is to be mended, 1 where something is, 2 where the sweep can't be made, and 130 after Ctrl-C. The last line
is the command that runs the first of what is to be mended again, or says that there is nothing."""
NAME = "toxi-sweep"
# The options of this command alone that decide what is run.
OPTIONS = ("most", "every_silence", "only")
# The options that name files of the table, and its part: the command that runs one point again has none of them.
OF_TABLE = ("--json", "--page", "--junit", "--folder", "--shard")


def read_arguments(words: Sequence[str]) -> Namespace:
    """The arguments, with the command as `command`."""
    parser = client_parser(NAME, ABOUT, FAULTS)
    parser.add_argument("--most", "--runs", metavar="N", type=positive, default=MOST, help="run at most N points (default: %(default)s)")
    about = "silence behind each byte, not only at the boundaries of what arrives, one byte beside them, and where the outcome changes"
    parser.add_argument("--every-silence", action="store_true", help=about)
    about = "run this point alone, such as 'shop 1 downstream 17 closed', and show the command's output. Repeatable"
    parser.add_argument("--only", metavar="POINT", action="append", type=_point, default=[], help=about)
    arguments, command = read_client_arguments(parser, words)
    if arguments.only and not arguments.shard.is_whole:
        parser.error("--only runs its points, and no shard of them")
    arguments.command = command
    return arguments


def _point(text: str) -> FaultPoint:
    try:
        return FaultPoint.parsed(text)
    except ValueError as error:
        raise ArgumentTypeError(str(error)) from None


def _setup(arguments: Namespace) -> ClientSetup:
    client = ShellClient(arguments.command, None) if arguments.only else ShellClient(arguments.command)
    options = {"seed": arguments.seed, "program": arguments.program}
    return ClientSetup(arguments.upstreams, client, arguments.within, before_of(arguments.before), arguments.jobs, options)


def sweeping_of(arguments: Namespace) -> Sweeping:
    """The sweep that the arguments ask for."""
    given = given_conversation(arguments)
    faults = tuple(arguments.faults or SWEPT)
    choose = chooser(faults, arguments.most, arguments.every_silence, arguments.within, arguments.seed, arguments.connections)
    if arguments.only:
        choose = functools.partial(_only, arguments)
    measures = not arguments.only and any(fault in DELAYS for fault in faults)
    # A point that is run alone shows its output once.
    return Sweeping(
        _setup(arguments),
        choose,
        judge_maker(arguments, arguments.command),
        repeats=not arguments.only,
        budget=arguments.budget,
        max_found=arguments.max_found,
        most=arguments.most,
        measures=measures,
        every_silence=arguments.every_silence,
        about=about_of(SWEEP, arguments, arguments.command, OPTIONS, given),
        given=given,
    )


def _only(arguments: Namespace, known: Conversation) -> ChosenPoints:
    return repeated_points(known.streams, arguments.only, arguments.within)


def write_files(sweep: Sweep, arguments: Namespace) -> None:
    """Writes the table where it is asked for."""
    write_results([sweep], arguments.json, arguments.page, arguments.junit)
    if arguments.folder is not None:
        KeptSweep(sweep, arguments.folder).write_files()


def last_line(words: Sequence[str], arguments: Namespace, sweep: Sweep) -> str:
    """The command that runs the first of what is to be mended again, or a sentence where there is nothing."""
    if not sweep.failures:
        return f"nothing is to be mended in {len(sweep.swept)} runs"
    # From the PYTHONPATH there is no console script.
    program = [NAME] if Path(sys.argv[0]).name == NAME else [sys.executable, "-m", "toxi.sweep_command"]
    if arguments.only:
        return shlex.join([*program, *words])
    return shlex.join([*program, "--only", str(sweep.failures[0].first.point), *_without_table(words)])


def _without_table(words: Sequence[str]) -> List[str]:
    """The words without the files of the table, which a run of one point would replace, and without its shard."""
    mark = words.index("--")
    options, kept = iter(words[:mark]), []
    for word in options:
        if word in OF_TABLE:
            next(options)
        elif word.partition("=")[0] not in OF_TABLE:
            kept.append(word)
    return [*kept, *words[mark:]]


def run(words: Sequence[str]) -> int:
    """Sweeps a command, prints its table, and returns the status."""
    arguments = read_arguments(words)
    if arguments.keep_conversation is not None:
        print(keep_conversation(_setup(arguments), judge_maker(arguments, arguments.command), arguments.keep_conversation))
        return NOTHING
    sweeping, line, interrupted = sweeping_of(arguments), TerminalLine(sys.stderr), False
    try:
        sweeping.run(lambda sweeping: line.show(progress_text(sweeping)))
    except KeyboardInterrupt:
        interrupted = True
    finally:
        line.end()
    sweep = sweeping.sweep
    print(sweep, last_line(words, arguments, sweep), sep="\n", flush=True)
    write_files(sweep, arguments)
    if interrupted:
        return STOPPED
    return FOUND if sweep.failures else NOTHING


def main(words: Optional[Sequence[str]] = None) -> int:
    """Runs the command line. Returns its status."""
    take_signals()
    try:
        return run(sys.argv[1:] if words is None else words)
    except (ToxiError, OSError) as error:
        print(f"{NAME}: {error}", file=sys.stderr)
        return REFUSED


if __name__ == "__main__":
    sys.exit(main())
