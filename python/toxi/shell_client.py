"""A command as a client: it finds its proxies in its environment, and its status is judged."""
import functools
import glob
import os
import re
import shlex
import shutil
import signal
import subprocess
import sys
import tempfile
import threading
from dataclasses import dataclass
from pathlib import Path
from typing import IO, Any, Callable, Dict, FrozenSet, Iterable, List, Mapping, Optional, Sequence, Set, Tuple, Union

from ._search.client_run import ClientRun
from .errors import ToxiError
from .outcomes import RIGHT, WRONG, Addresses, StartedRun, Equals, Judge, Kind, Outcome, Startable, Verdict
from .process import tied_to_parent
from .program import SERVE_VARIABLES

# How long a command may take to end by SIGTERM before SIGKILL, in seconds.
TERM_LIMIT = 1.0
# What a shell adds to the signal that ended a command.
SIGNALLED = 128
# So much of standard error is looked at, in bytes.
MAX_SAID = 4096
Output = Union[int, IO[Any], None]


# Variables that the program and the commands of the package read themselves.
OWN_VARIABLES: Tuple[str, ...] = (*SERVE_VARIABLES, "TOXI_EXPLAIN", "TOXI_RUN")


def variable_of(proxy: str) -> str:
    """The variable with the address of a proxy: `TOXI_<NAME>`, the name in upper case, with `_` for other characters."""
    return "TOXI_" + re.sub("[^A-Za-z0-9]", "_", proxy).upper()


def variables_of(addresses: Mapping[str, object]) -> Dict[str, str]:
    """The variables of proxies with their addresses, `host:port`. Raises `ToxiError` where two proxies have one variable, or Toxi itself reads it."""
    found: Dict[str, str] = {}
    for proxy, address in addresses.items():
        variable = variable_of(proxy)
        if variable in OWN_VARIABLES:
            raise ToxiError(f"the variable of {proxy!r} would be {variable}, which Toxi itself reads: choose another name")
        if variable in found:
            raise ToxiError(f"two proxies have the variable {variable}")
        found[variable] = str(address)
    return found


def direct_command(upstreams: Mapping[str, str], command: Sequence[str]) -> str:
    """The command of a shell that runs a command at its upstreams, without a proxy."""
    words = with_addresses(command, upstreams)
    return " ".join([*(f"{variable}={shlex.quote(upstream)}" for variable, upstream in variables_of(upstreams).items()), shlex.join(words)])


class Status(int):
    """The status of a command. `said` is its last line of standard error."""

    said: str = ""


@dataclass(frozen=True)
class ShellClient(Startable):
    """Runs `command` without standard input. Its answer is its `Status`, as a shell tells it: 128 and the signal's number behind a signal.

    In its words `{shop}`, `{shop.host}` and `{shop.port}` are the address of the proxy of that name. `output` is where both of its outputs go, as for
    `subprocess`: nowhere by default, but for the last line of standard error, and None is where ours go.
    """

    command: Sequence[str]
    output: Output = subprocess.DEVNULL

    def start(self, addresses: Addresses) -> StartedRun:
        """Starts the command in a session of its own. Raises `ToxiError` where it can't be run."""
        require_command(self.command)
        return _CommandRun(with_addresses(self.command, addresses), variables_of(addresses), self.output)


def require_command(command: Sequence[str]) -> None:
    """Raises `ToxiError` where a command can't be run."""
    if shutil.which(command[0]) is None:
        raise ToxiError(f"{command[0]} isn't there, or can't be run")


def with_addresses(command: Sequence[str], addresses: Mapping[str, object]) -> List[str]:
    """The words of a command with the addresses of the proxies that they name. Other braces stay."""
    texts = {name: str(address) for name, address in addresses.items()}
    values = {f"{{{name}}}": text for name, text in texts.items()}
    values.update({f"{{{name}.host}}": text.rpartition(":")[0].strip("[]") for name, text in texts.items()})
    values.update({f"{{{name}.port}}": text.rpartition(":")[2] for name, text in texts.items()})
    named = re.compile("|".join(map(re.escape, values)) or "(?!)")
    return [named.sub(lambda found: values[found[0]], word) for word in command]


class _CommandRun(StartedRun):
    """A running command, waited for by a thread."""

    def __init__(self, command: Sequence[str], variables: Dict[str, str], output: Output) -> None:
        super().__init__()
        self._is_ended = False
        self._said: IO[bytes] = tempfile.TemporaryFile()
        self._child = subprocess.Popen(
            [*tied_to_parent(), *command],
            env={**os.environ, **variables},
            stdin=subprocess.DEVNULL,
            stdout=output,
            stderr=self._said if output == subprocess.DEVNULL else output,
            start_new_session=True,
        )
        threading.Thread(target=self._wait, name="toxi command", daemon=True).start()

    def _wait(self) -> None:
        # Not reaped yet, so that no other process can have its number while what it left is ended.
        os.waitid(os.P_PID, self._child.pid, os.WEXITED | os.WNOWAIT)
        self._signal(signal.SIGKILL)
        status = self._child.wait()
        found = Status(status if status >= 0 else SIGNALLED - status)
        with self._said as said:
            found.said = last_line(said) if found else ""
        self.settle(found)

    def end(self) -> None:
        """Ends the processes of its session by SIGTERM, and by SIGKILL once it has ended, or if that takes too long."""
        self._is_ended = True
        self._signal(signal.SIGTERM)
        if not self.wait(TERM_LIMIT):
            self._signal(signal.SIGKILL)

    def _signal(self, number: int) -> None:
        """Sends a signal to its process group. Once it is ended from outside, to the other groups of its session too: `timeout` has one of its own."""
        for group in {self._child.pid, *(groups_of(self._child.pid) if self._is_ended else ())}:
            try:
                os.killpg(group, number)
            except ProcessLookupError:
                pass


def last_line(said: IO[bytes], since: int = 0) -> str:
    """The last line that isn't empty, behind so many bytes."""
    size = said.seek(0, os.SEEK_END)
    said.seek(max(since, size - MAX_SAID))
    lines = said.read().decode(errors="replace").split("\n")
    return next((line.strip() for line in reversed(lines) if line.strip()), "")


def groups_of(session: int) -> Set[int]:
    """The process groups of a session."""
    found = set()
    for stat in glob.glob("/proc/[0-9]*/stat"):
        try:
            fields = Path(stat).read_bytes().rpartition(b")")[2].split()
        except (FileNotFoundError, ProcessLookupError):
            continue
        if int(fields[3]) == session:
            found.add(int(fields[2]))
    return found


@dataclass(frozen=True)
class StatusJudge(Judge):
    """Status 0 is right, those of `allowed_statuses` may come of a fault, and all others mean that the client is to be mended.

    `looks` is called with each run whose status is 0, and says whether it is right.
    """

    allowed_statuses: FrozenSet[int] = frozenset()
    looks: Optional[Callable[[ClientRun], bool]] = None

    @property
    def reads_runs(self) -> bool:
        """Whether `looks` is given, which looks at the links of runs."""
        return self.looks is not None

    def of_answer(self, answer: int, run: Optional[ClientRun] = None) -> Verdict:
        """The verdict of a status: `right`, `status <n>`, or `wrong answer` where `looks` refuses the run."""
        if answer == 0:
            return RIGHT if self.looks is None or run is None or self.looks(run) else WRONG
        return Verdict(Kind.ALLOWED if answer in self.allowed_statuses else Kind.FAILED, f"status {answer}")


def status_judge(
    unfaulted: Sequence[Outcome], allowed_statuses: Iterable[int], direct: str, looks: Optional[Callable[[ClientRun], bool]] = None
) -> StatusJudge:
    """The judge of a command. Raises `ToxiError` where a run without a fault hung or had a status other than 0. It tells `direct`, the `direct_command`."""
    judge = StatusJudge(Equals(0), (), allowed_statuses=frozenset(allowed_statuses), looks=looks)
    for outcome in unfaulted:
        verdict = judge.verdict(outcome)
        if verdict is not RIGHT:
            raise ToxiError(f"the command doesn't succeed without a fault: {verdict}\nWithout Toxi: {direct}")
    return judge


def checks_by(command: str) -> Callable[[ClientRun], bool]:
    """Runs a shell's command on a run, which finds it as a JSON file in TOXI_RUN. Its status 0 says that the run is right."""

    def looks(run: ClientRun) -> bool:
        with tempfile.NamedTemporaryFile("w", prefix="toxi-run-", suffix=".json", encoding="utf-8") as file:
            file.write(run.json_text())
            file.flush()
            environment = {**os.environ, "TOXI_RUN": file.name}
            return subprocess.run(command, shell=True, stdin=subprocess.DEVNULL, stdout=sys.stderr, env=environment, check=False).returncode == 0

    return looks


def before_of(command: Optional[str]) -> Optional[Callable[[], object]]:
    """What runs before each run. None without a command."""
    return None if command is None else functools.partial(_run_before, command)


def _run_before(command: str) -> None:
    # Standard output has the result alone.
    status = subprocess.run(command, shell=True, stdin=subprocess.DEVNULL, stdout=sys.stderr, check=False).returncode
    if status != 0:
        raise ToxiError(f"the command before each run has the status {status}: {command}")
