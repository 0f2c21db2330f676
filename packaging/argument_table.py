"""The program's table of its commands and their arguments, as its hidden command `arguments` prints it: lines of JSON."""
import json
import subprocess
from dataclasses import dataclass
from typing import Any, Dict, List, Tuple


@dataclass(frozen=True)
class Argument:
    """An argument of a command, or of the program. `value` is empty where it takes none, and `values` where any may stand.

    `help` is its whole line: `words`, the range of its numbers, what holds without it, and its variable of the environment. Each of these three is empty
    where there is none. `unit` is what a number counts. What isn't required may have to be there `unless` one of these is.
    """

    command: str
    name: str
    short: str
    option: bool
    value: str
    kind: str
    values: List[str]
    words: str
    help: str
    range: str
    unit: str
    default: str
    environment: str
    required: bool
    unless: List[str]
    repeatable: bool
    shared: bool

    @property
    def spellings(self) -> List[str]:
        """How an option is written, the short form first."""
        return [*([f"-{self.short}"] if self.short else []), f"--{self.name}"]


@dataclass(frozen=True)
class Command:
    """A command. Its options are followed by those that each command has."""

    name: str
    about: str
    examples: str
    options: List[Argument]
    places: List[Argument]


@dataclass(frozen=True)
class Toxic:
    """A type of toxics, what it does in a line, and the keys of its short form."""

    name: str
    words: str
    keys: List[str]


@dataclass(frozen=True)
class Attribute:
    """An attribute of a type of toxics. Its `default` holds unless it is required."""

    toxic: str
    name: str
    unit: str
    placeholder: str
    least: int
    most: int
    required: bool
    default: int
    words: str


@dataclass(frozen=True)
class Topic:
    """What `help` shows besides commands and faults. The text of the faults is that of their lines."""

    name: str
    about: str
    text: str


@dataclass(frozen=True)
class Fault:
    """A fault: its code and name, what stands behind them, what it means and what to do. Its line has all of these."""

    code: str
    name: str
    subject: str
    means: str
    advice: str
    line: str


@dataclass(frozen=True)
class Table:
    """All that the program tells of its command line."""

    name: str
    version: str
    about: str
    examples: str
    options: List[Argument]
    commands: List[Command]
    toxics: List[Toxic]
    attributes: List[Attribute]
    topics: List[Topic]
    faults: List[Fault]

    @property
    def shown_by_help(self) -> List[Tuple[str, str]]:
        """The commands, topics and codes that `help` takes, each with what it is."""
        commands = [(command.name, command.about) for command in self.commands]
        topics = [(topic.name, topic.about) for topic in self.topics]
        return [*commands, *topics, *((fault.code, fault.name) for fault in self.faults)]


Rows = Dict[str, List[Dict[str, Any]]]


def table_of(program: str) -> Table:
    """The table of a program."""
    ran = subprocess.run([program, "arguments"], check=True, stdout=subprocess.PIPE, encoding="utf-8")
    rows: Rows = {}
    for line in ran.stdout.rstrip("\n").split("\n"):
        row = json.loads(line)
        rows.setdefault(row.pop("event"), []).append(row)
    return _read(rows)


def _read(rows: Rows) -> Table:
    [program] = rows["program"]
    arguments = [Argument(**row) for row in rows["argument"]]
    options = [argument for argument in arguments if argument.command == program["name"]]
    shared = [option for option in options if option.shared]
    commands = []
    for row in rows["command"]:
        own = [argument for argument in arguments if argument.command == row["name"]]
        commands.append(
            Command(
                **row,
                options=[*(argument for argument in own if argument.option), *shared],
                places=[argument for argument in own if not argument.option],
            )
        )
    return Table(
        **program,
        options=options,
        commands=commands,
        toxics=[Toxic(**row) for row in rows["toxic"]],
        attributes=[Attribute(**row) for row in rows["attribute"]],
        topics=[Topic(**row) for row in rows["topic"]],
        faults=[Fault(**row) for row in rows["fault"]],
    )
