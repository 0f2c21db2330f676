"""How a file of its own runs a client again: the text of `test_found.py`."""
import os
from abc import ABC, abstractmethod
from dataclasses import dataclass
from typing import Any, Callable, Dict, List, Optional, Sequence, Tuple, Type

from .outcomes import Allowed, Check, Client, Eventually
from .sources import Source, place_of_source, source_of

HEAD = '''"""{about}"""
import sys
from pathlib import Path
from typing import Mapping
'''
TEST = '''

def test_found(toxi_upstreams: Mapping[str, str]) -> None:
    {call}


if __name__ == "__main__":
    sys.exit(run_again(test_found, Path(__file__).parent, {times}))
'''
MISSING = '''

def {name}(*values):
    raise NotImplementedError({told!r})
'''


class ClientSource(ABC):
    """What a client was made of."""

    @property
    def folders(self) -> List[str]:
        """The folders from which a test of it imports, but for those of every interpreter."""
        return []

    @abstractmethod
    def test_text(self, about: str, within: float, times: int) -> str:
        """A test that runs the client under the fault beside it, `times` times, and fails until it is mended."""


@dataclass(frozen=True)
class CommandSource(ClientSource):
    """A command and the statuses with which it may fail, and the shell's commands that run before each run and that check it. One that is `persistent` stays
    for many runs."""

    command: Sequence[str]
    allowed_statuses: Sequence[int]
    before: Optional[str] = None
    check: Optional[str] = None
    persistent: bool = False

    def test_text(self, about: str, within: float, times: int) -> str:
        """As a test of the command."""
        options_given = (("before", self.before), ("check", self.check), ("persistent", self.persistent or None))
        given = "".join(f"{name}={value!r}, " for name, value in options_given if value is not None)
        options = f"allowed_statuses={list(self.allowed_statuses)!r}, {given}within={within!r}, times={times}, upstreams=toxi_upstreams"
        call = f"rerun_command(Path(__file__).parent, {list(self.command)!r}, {options})"
        return f"{HEAD.format(about=about)}\nfrom toxi import rerun_command\nfrom toxi.again import run_again\n{TEST.format(call=call, times=times)}"


@dataclass(frozen=True)
class FunctionSource(ClientSource):
    """A function and what `find_fault` was given beside it."""

    client: Client
    check: Optional[Check]
    allowed: Allowed
    before: Optional[Callable[[], object]]
    eventually: Optional[Eventually] = None

    @property
    def folders(self) -> List[str]:
        """Those of its functions and of the classes of `allowed`."""
        return list(dict.fromkeys(str(source.folder) for source in self._sources.values() if source is not None and source.folder is not None))

    @property
    def _functions(self) -> Dict[str, Any]:
        functions: Dict[str, Any] = {"client": self.client, "check": self.check, "before": self.before, "eventually": self.eventually}
        return {name: value for name, value in functions.items() if value is not None}

    @property
    def _classes(self) -> Dict[str, Type[BaseException]]:
        return _named(self.allowed if isinstance(self.allowed, tuple) else (self.allowed,))

    @property
    def _values(self) -> Dict[str, Any]:
        """What the test imports."""
        foreign = {name: kind for name, kind in self._classes.items() if (kind.__module__, kind.__name__) != ("builtins", name)}
        return {**self._functions, **foreign}

    @property
    def _sources(self) -> Dict[str, Optional[Source]]:
        return {name: source_of(value) for name, value in self._values.items()}

    def test_text(self, about: str, within: float, times: int) -> str:
        """As a test that imports them. One that no module has, such as a local function, is to be put in by hand."""
        values, sources, classes = self._values, self._sources, self._classes
        allowed = ", ".join(classes) + ("," if len(classes) == 1 else "")
        given = [f"{name}={name}" for name in self._functions if name != "client"]
        options = [*given, f"allowed=({allowed})", f"within={within!r}", f"times={times}", "upstreams=toxi_upstreams"]
        call = f"rerun(Path(__file__).parent, client, {', '.join(options)})"
        missing = [MISSING.format(name=name, told=_to_put_in(name, values[name])) for name, source in sources.items() if source is None]
        return "".join([HEAD.format(about=about), *_imports(sources), *missing, TEST.format(call=call, times=times)])


def _named(classes: Sequence[Type[BaseException]]) -> Dict[str, Type[BaseException]]:
    """Classes by their names. A later one of a name has its number behind it."""
    named: Dict[str, Type[BaseException]] = {}
    for kind in classes:
        named[kind.__name__ if kind.__name__ not in named else f"{kind.__name__}{len(named) + 1}"] = kind
    return named


def _to_put_in(name: str, value: Any) -> str:
    place = place_of_source(value)
    return f"put the {name} in here: no module has it by a name, at {os.path.relpath(place) if os.path.isabs(place) else place}"


def _imports(sources: Dict[str, Optional[Source]]) -> List[str]:
    named: List[Tuple[str, Source]] = [(name, source) for name, source in sources.items() if source is not None]
    imports = [f"from {source.module} import {source.name}" + ("" if source.name == name else f" as {name}") + "\n" for name, source in named]
    return ["\nfrom toxi import rerun\nfrom toxi.again import run_again\n", *imports]
