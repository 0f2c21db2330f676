"""What the command lines of `toxi-find` and `toxi-sweep` share: the upstreams, the client's limit, its statuses and its command."""
import argparse
import functools
import shlex
from pathlib import Path
from typing import List, Optional, Sequence, Tuple

from . import __version__
from ._search.about import About, plain
from ._search.conversation_file import KeptConversation, read_conversation
from ._search.recording import recorded
from ._search.running import MakeJudge
from ._search.shards import Shard
from .batches import ClientSetup
from .outcomes import WITHIN
from .seeds import seed_argument
from .persistent_client import direct_request
from .shell_client import checks_by, direct_command, status_judge
from .written_results import add_files, new_file

# The options that decide what is tried and what is right, beside those of one of the commands.
OPTIONS = ("allowed_statuses", "before", "check", "connections", "faults")


def client_parser(name: str, about: str, faults: Sequence[str], budget: Optional[float] = None, max_found: Optional[int] = None) -> argparse.ArgumentParser:
    """A parser with the options that both commands have. The client's command stands behind `--`."""
    parser = argparse.ArgumentParser(
        prog=name,
        usage=f"{name} --upstream NAME=HOST:PORT [option ..] -- COMMAND ..",
        description=about,
        formatter_class=argparse.RawDescriptionHelpFormatter,
        allow_abbrev=False,
    )
    parser.add_argument(
        "--upstream",
        metavar="NAME=HOST:PORT",
        dest="upstreams",
        action="append",
        required=True,
        type=named_upstream,
        help="a service that the command uses; it finds the address of the proxy before it in TOXI_NAME. Repeatable",
    )
    parser.add_argument("--within", metavar="S", type=seconds, default=WITHIN, help="a command that runs longer hangs, in seconds (default: %(default)s)")
    parser.add_argument(
        "--allow-status",
        metavar="N",
        dest="allowed_statuses",
        action="append",
        type=int,
        default=[],
        help="a status with which the command may fail under a fault. Repeatable",
    )
    _add_run_options(parser, faults)
    about = f"what all of it takes at most, in seconds (default: {budget or 'no bound'})"
    parser.add_argument("--budget", metavar="S", type=seconds, default=budget, help=about)
    parser.add_argument("--max-found", metavar="N", type=positive, default=max_found, help=f"end with N failures (default: {max_found or 'no bound'})")
    parser.add_argument("--folder", metavar="DIR", type=Path, help="where files are written")
    add_files(parser)
    _add_shard_options(parser)
    parser.add_argument("--program", metavar="PATH", help="the program `toxi`; else $TOXI, the package's own, or that of the PATH")
    parser.add_argument("--version", action="version", version=f"{name} {__version__}")
    return parser


def _add_run_options(parser: argparse.ArgumentParser, faults: Sequence[str]) -> None:
    """The options that say how the command is run, and under which faults."""
    parser.add_argument("--seed", metavar="N", type=seed_argument, default=1, help="the seed of what is drawn, and of the proxies (default: %(default)s)")
    parser.add_argument("--jobs", metavar="N", type=positive, default=1, help="run N commands at once (default: %(default)s)")
    parser.add_argument("--before", metavar="COMMAND", help="a shell's command that runs before each run")
    about = "a shell's command that says by its status 0 that a run is right; it finds the run as a JSON file in TOXI_RUN"
    parser.add_argument("--check", metavar="COMMAND", help=about)
    parser.add_argument("--connections", metavar="N", type=positive, help="faults of the first N connections of each proxy alone")
    parser.add_argument("--fault", dest="faults", metavar="FAULT", action="append", choices=faults, help=f"one of {', '.join(faults)}. Repeatable")


def _add_shard_options(parser: argparse.ArgumentParser) -> None:
    """The options by which several machines share one search."""
    parser.add_argument("--name", metavar="NAME", help="the client's name in a result, and with --remember in DIR; else it is the command")
    about = "run part K of N of the faults, over the --conversation that all parts have. `toxi-merge` joins their --json"
    parser.add_argument("--shard", metavar="K/N", type=_shard, default=Shard(), help=about)
    about = "record the client without a fault and under silence, write what that shows, and end"
    parser.add_argument("--keep-conversation", metavar="FILE", type=new_file, help=about)
    parser.add_argument("--conversation", metavar="FILE", type=Path, help="read what --keep-conversation has written, in place of recording it")


def _shard(text: str) -> Shard:
    try:
        return Shard.parsed(text)
    except ValueError as error:
        raise argparse.ArgumentTypeError(str(error)) from None


def about_of(kind: str, arguments: argparse.Namespace, command: Sequence[str], options: Sequence[str], given: Optional[KeptConversation]) -> About:
    """What a result is of. The named options decide what is tried; those of the client decide what is right."""
    client = shlex.join(command) if arguments.name is None else arguments.name
    known = {name: plain(getattr(arguments, name)) for name in (*OPTIONS, *options)}
    digest = "" if given is None else given.digest
    return About(kind, client, arguments.seed, arguments.within, tuple(arguments.upstreams), known, digest, arguments.shard)


def given_conversation(arguments: argparse.Namespace) -> Optional[KeptConversation]:
    """The conversation of the file that is named. Raises `ToxiError` where it has none."""
    return None if arguments.conversation is None else read_conversation(arguments.conversation)


def keep_conversation(setup: ClientSetup, make_judge: MakeJudge, path: Path) -> str:
    """Records a client's conversation, writes it, and returns what is told of it."""
    kept = recorded(setup, make_judge)
    path.write_text(kept.text, encoding="utf-8")
    return f"kept {path}: {kept.summary}"


def judge_maker(arguments: argparse.Namespace, command: Sequence[str]) -> MakeJudge:
    """What makes the judge of a command's runs."""
    looks = None if arguments.check is None else checks_by(arguments.check)
    direct = (direct_request if vars(arguments).get("persistent") else direct_command)(arguments.upstreams, command)
    return functools.partial(status_judge, allowed_statuses=arguments.allowed_statuses, direct=direct, looks=looks)


def read_client_arguments(parser: argparse.ArgumentParser, words: Sequence[str]) -> Tuple[argparse.Namespace, List[str]]:
    """The arguments before `--`, with `upstreams` as a mapping, and the command behind it. What can't be read ends the program with status 2."""
    mark = words.index("--") if "--" in words else len(words)
    arguments = parser.parse_args(words[:mark])
    named = arguments.upstreams
    arguments.upstreams = dict(named)
    if len(arguments.upstreams) < len(named):
        parser.error("an upstream is named twice")
    if not arguments.shard.is_whole and arguments.conversation is None:
        parser.error("a shard needs the --conversation that all shards have")
    if arguments.keep_conversation is not None and arguments.conversation is not None:
        parser.error("--keep-conversation records anew, so it takes no --conversation")
    command = list(words[mark + 1 :])
    if not command:
        parser.error("a command behind `--` is needed")
    return arguments, command


def seconds(text: str) -> float:
    """A number of seconds above 0."""
    value = float(text)
    if not 0 < value < float("inf"):
        raise ValueError(text)
    return value


def positive(text: str) -> int:
    """A whole number above 0."""
    value = int(text)
    if value < 1:
        raise ValueError(text)
    return value


def named_upstream(text: str) -> Tuple[str, str]:
    """The name and the address of `NAME=HOST:PORT`."""
    name, mark, upstream = text.partition("=")
    if not (name and mark and upstream):
        raise argparse.ArgumentTypeError(f"{text!r} isn't NAME=HOST:PORT")
    # As for curl, `:8080` is one of this machine.
    return name, f"127.0.0.1{upstream}" if upstream.startswith(":") and upstream.count(":") == 1 else upstream
