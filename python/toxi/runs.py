"""One start of `toxi serve`: its files, its commands, and what it printed."""
import os
import re
import shlex
from dataclasses import dataclass, field
from pathlib import Path
from typing import Dict, List, NamedTuple, Optional, Sequence, Tuple, Type, TypeVar

from .commands import ERRORS, Answer
from .errors import ToxiError
from .lines import Address, Link, Total, parse
from .places import Rules
from .rules import script_text

Line = TypeVar("Line", Link, Total)
# The second line of a log.
LOGGED = re.compile(r"link (.*) (\d+) \w+\n")
# What a clone's ./toxi says of itself.
CHECKED_BUILD = "toxi: checked build"
# The fault of `report` where logs are unfaithful. The page shows them.
UNFAITHFUL = "G3 "


class Position(NamedTuple):
    """A run, counted from 1, and how many lines it had printed on standard output and on standard error."""

    run: int = 1
    lines: int = 0
    said: int = 0


@dataclass
class Run:
    """A start of the program, counted from 1. The names of its files in `folder`, and that of its logs, have the number from 2 on."""

    number: int
    program: str
    populate: str
    rules: Rules
    seed: int
    folder: Path
    first_log: Optional[Path]
    options: Sequence[str]
    lines: List[str] = field(default_factory=list)
    said: List[str] = field(default_factory=list)

    @property
    def suffix(self) -> str:
        """What the names of its files have behind them."""
        return "" if self.number == 1 else f"-{self.number}"

    @property
    def files(self) -> List[Path]:
        """The populate file and the script."""
        return [self.folder / f"proxies{self.suffix}.json", self.folder / f"script{self.suffix}.toml"]

    @property
    def log(self) -> Optional[Path]:
        """The folder of its logs. The program refuses one that isn't empty."""
        return self.first_log and self.first_log.with_name(self.first_log.name + self.suffix)

    def write_files(self) -> None:
        """Writes the populate file and the script."""
        self.folder.mkdir(parents=True, exist_ok=True)
        script = self.rules if isinstance(self.rules, str) else script_text(self.rules)
        for path, text in zip(self.files, (self.populate, script)):
            path.write_bytes(text.encode())

    def _command(self, name: str) -> List[str]:
        config, script = map(str, self.files)
        return [self.program, name, "--config", config, "--script", script]

    def serve_command(self) -> List[str]:
        """The command that serves."""
        log = [] if self.log is None else ["--log", str(self.log)]
        return [*self._command("serve"), "--seed", str(self.seed), *self.options, *log]

    def check_command(self) -> List[str]:
        """The command that finds rules without effect."""
        return self._command("check")

    def pick_command(self, proxy: str, number: int, stream: str) -> List[str]:
        """The command that tells what a connection, counted from 1, meets on a stream."""
        command = self._command("pick")
        return [*command, "--seed", str(self.seed), "--proxy", proxy, "--conn", str(number), "--stream", stream]

    def report_command(self, title: Optional[str] = None) -> List[str]:
        """The command that prints the page of the logs whose names it is given. The title is that of the running test unless told."""
        told = running_test() if title is None else title
        return [self.program, "report", *([] if told is None else [f"--title={told}"]), "-"]

    def listening(self) -> Dict[str, Address]:
        """Where the proxies listen, by their printed names."""
        return dict(found for found in map(parse, self._lines_of("listening ")) if isinstance(found, tuple))

    def parsed(self, kind: Type[Line]) -> List[Line]:
        """The lines of a kind so far."""
        return [found for found in map(parse, self._lines_of(f"{kind.__name__.lower()} ")) if isinstance(found, kind)]

    def _lines_of(self, word: str) -> List[str]:
        """The lines so far that begin with a word."""
        return [line for line in self.lines if line.startswith(word)]

    def logs(self, since: Position = Position()) -> List[Path]:
        """The logs so far, but for those of links that had ended at a position of this run."""
        if self.log is None:
            return []
        logs = sorted(self.log.glob("*.log"))
        ended = {(link.proxy, link.number) for link in map(parse, self.lines[: self._before(since).lines]) if isinstance(link, Link)}
        return [log for log in logs if logged_link(log) not in ended] if ended else logs

    def page_path(self) -> Path:
        """Where its page is written unless a path is told: beside its logs."""
        if self.log is None:
            raise ToxiError("it keeps no logs: give `log`")
        return self.log.with_name(f"report{self.suffix}.html")

    def position(self) -> Position:
        """How much it has printed so far."""
        return Position(self.number, len(self.lines), len(self.said))

    def _before(self, since: Position) -> Position:
        """A position of this run: its start, for one of an earlier run."""
        return since if since.run == self.number else Position()

    def report(self, since: Position = Position()) -> str:
        """Its seed, its command, its lines behind a position, if that is one of this run, and how its logs are judged."""
        before = self._before(since)
        judged = [] if self.log is None else [f"find {shlex.quote(str(self.log))} -name '*.log' | {shlex.quote(self.program)} replay -"]
        said = [line for line in self.said[before.said :] if not line.startswith(CHECKED_BUILD)]
        return "\n".join([f"seed {self.seed}", shlex.join(self.serve_command()), *self.lines[before.lines :], *said, *judged])


def logged_link(log: Path) -> Optional[Tuple[str, int]]:
    """The proxy and the number of a log's link, which stand in its second line. None where it isn't written yet."""
    with log.open(encoding="utf-8", errors=ERRORS) as lines:
        next(lines, "")
        found = LOGGED.fullmatch(next(lines, ""))
    return (found[1], int(found[2])) if found else None


def running_test() -> Optional[str]:
    """The id of the test that pytest runs."""
    return os.environ.get("PYTEST_CURRENT_TEST", "").rpartition(" (")[0] or None


def names_of(logs: Sequence[Path]) -> str:
    """The standard input of `report`."""
    return "".join(f"{log}\n" for log in logs)


def written_page(answer: Answer, path: Path) -> Path:
    """The path of a page, once it is written. Raises `ToxiError` where there is none."""
    if answer.status != 0 and UNFAITHFUL not in answer.said:
        raise ToxiError(f"no page: {answer.said.strip() or answer.status}")
    path.write_text(answer.printed, encoding="utf-8", errors=ERRORS)
    return path
