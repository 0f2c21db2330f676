"""The program `toxi`: where it is, and whether it is of the package's version."""
import functools
import importlib.metadata
import os
import re
import shutil
import subprocess
from pathlib import Path
from typing import Dict, Iterator, Optional, Tuple

from . import __version__
from .errors import ToxiError

PACKAGE = Path(__file__).parent
# What `serve` would take in place of options that aren't given. The options of a suite are its own.
SERVE_VARIABLES: Tuple[str, ...] = ("TOXI_CONFIG", "TOXI_SCRIPT", "TOXI_SEED", "TOXI_WORKERS")
# A clone's ./toxi may compile the program first. In seconds.
VERSION_LIMIT = 300


def found_program(told: Optional[str] = None) -> str:
    """The path of the program: the one that is told, else `$TOXI`, else the package's own, else `toxi` on the PATH.

    Raises `ToxiError` where there is none, or it is of another version than this package.
    """
    program = told or os.environ.get("TOXI") or _own() or shutil.which("toxi")
    if program is None:
        raise ToxiError(
            "no program `toxi`: none was given by `program`, --toxi-program or the ini's toxi_program, $TOXI isn't set, "
            f"{PACKAGE} was installed without one, and the PATH has none"
        )
    path = startable(program)
    version = _version_of(path, os.stat(path).st_mtime_ns)
    if version != __version__:
        raise ToxiError(f"{program} is of version {version}, and the package toxi of {__version__}")
    return program


def _own() -> Optional[str]:
    """The program of the wheel that this package was installed from, if it was."""
    return next((str(place) for place in _places() if place.is_file()), None)


def _places() -> Iterator[Path]:
    """Where pip may have put the wheel's program: among the commands of the environment, which the wheel's record tells, or with `--target` in a folder beside
    the package."""
    try:
        installed = importlib.metadata.distribution("toxi")
    except importlib.metadata.PackageNotFoundError:
        return
    if Path(str(installed.locate_file("toxi"))).resolve() == PACKAGE.resolve():
        yield from (Path(str(file.locate())).resolve() for file in installed.files or () if file.name == "toxi" and file.parent.name == "bin")
        yield PACKAGE.parent / "bin" / "toxi"


def environment() -> Dict[str, str]:
    """The environment of the program: this process's without options of `serve`. Explanations of faults are asked for unless it refuses them."""
    return {"TOXI_EXPLAIN": "1", **{name: value for name, value in os.environ.items() if name not in SERVE_VARIABLES}}


def startable(program: str) -> str:
    """The path of a program that can be started. Raises `ToxiError` where it can't."""
    path = shutil.which(program)
    if path is None:
        raise ToxiError(f"{program} can't be started")
    return path


@functools.lru_cache(maxsize=None)
def _version_of(path: str, changed: int) -> str:
    """The version that a program tells. It is asked once for a path and a time of change, in nanoseconds."""
    try:
        ran = subprocess.run([path, "--version"], stdin=subprocess.DEVNULL, capture_output=True, encoding="utf-8", errors="replace", timeout=VERSION_LIMIT, check=False)
    except (OSError, subprocess.TimeoutExpired):
        raise ToxiError(f"{path} can't be started") from None
    told = re.match(r"toxi (\d\S*)", ran.stdout)
    if told is None:
        raise ToxiError(f"{path} isn't the program `toxi`: it doesn't tell a version")
    return told[1]
