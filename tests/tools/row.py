"""A row of the table: a tool, what it asks, and what is wrong when it goes wrong."""
import contextlib
import dataclasses
import glob
import pathlib
from typing import Callable, Tuple

# Debian's packages belong to this one, which need not be the first on the PATH.
PYTHON = "/usr/bin/python3"
CLIENTS = pathlib.Path(__file__).resolve().parent / "clients"
Words = Tuple[str, ...]


@dataclasses.dataclass(frozen=True)
class Tool:
    """A tool, the package of Debian that has it, and a command that prints its version. The command fails where the tool isn't installed."""

    name: str
    package: str
    version: Words


@dataclasses.dataclass(frozen=True)
class Service:
    """What a tool asks, in words. `start` is given a folder, and gives an address for as long as the `with` statement.

    Where it is a program of Debian, `package` has it, and `program` is its path, with wildcards.
    """

    words: str
    start: Callable[[pathlib.Path], contextlib.AbstractContextManager[str]]
    package: str = ""
    program: str = ""

    @property
    def is_installed(self) -> bool:
        return not self.program or bool(glob.glob(self.program))


@dataclasses.dataclass(frozen=True)
class Row:
    """How a tool is tried.

    `name` is for `--only`. `command` has the service's address as `{server}`, `{server.host}` and `{server.port}`; its status and its output are judged.
    `wrong` is what its user would call the mistake. `build` makes the command, in the folder where both run. `before` is a shell's command before each run,
    with `{host}` and `{port}` of the service itself. `faults` are words of `toxi-find`, and `within` is in seconds.
    """

    name: str
    tool: Tool
    service: Service
    command: Words
    wrong: str
    build: Words = ()
    before: str = ""
    faults: Words = ("closed",)
    within: float = 5.0
    max_found: int = 2


def module(name: str, shown: str, package: str) -> Tool:
    """A module of Python."""
    return Tool(shown, package, (PYTHON, "-c", f"import {name}; print({name}.__version__)"))


def python_client(name: str, *words: str) -> Words:
    """The command of a client in Python."""
    return (PYTHON, str(CLIENTS / name), *words)
