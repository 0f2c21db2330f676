"""Commands of the program that answer and end."""
import subprocess
from dataclasses import dataclass
from typing import List, Optional, Sequence

from .errors import ToxiError
from .program import environment

# Names of files may have any bytes.
ERRORS = "surrogateescape"


@dataclass(frozen=True)
class Answer:
    """What a command printed, on standard output and on standard error, and its status."""

    status: int
    printed: str
    said: str

    @property
    def lines(self) -> List[str]:
        """The lines on standard output. A name may have other line ends than the program's."""
        return self.printed.split("\n")[:-1]

    @property
    def faults(self) -> List[str]:
        """The lines on standard error."""
        return self.said.split("\n")[:-1]


def answer_of(command: Sequence[str], given: str = "", timeout: Optional[float] = None) -> Answer:
    """Runs a command with a text on standard input. Raises `TimeoutError` after `timeout` seconds, and `ToxiError` where it can't be started."""
    try:
        ran = subprocess.run(command, input=given, capture_output=True, encoding="utf-8", errors=ERRORS, timeout=timeout, env=environment(), check=False)
    except subprocess.TimeoutExpired:
        raise TimeoutError(f"{command[0]} didn't answer within {timeout} s") from None
    except OSError as error:
        raise unstartable(command, error) from None
    return Answer(ran.returncode, ran.stdout, ran.stderr)


def unstartable(command: Sequence[str], error: OSError) -> ToxiError:
    """The error of a command that the system doesn't start, such as one for another machine."""
    return ToxiError(f"{command[0]} can't be started: {error.strerror}")
