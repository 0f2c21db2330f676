"""The Rattle kit on the PATH."""
import os
import shutil
import subprocess
import sys
from pathlib import Path
from typing import List

PROGRAMS = Path(os.path.realpath(shutil.which("rt") or "rt")).parent
KIT = PROGRAMS.parent
CLANG = KIT / "toolchain" / "bin" / "clang"
sys.path.insert(0, str(PROGRAMS))
import rtlib  # noqa: E402  (the kit's own library, which knows how a crate of crates.txt is checked)

# The first call sets a signal's handler, which only the main thread may.
GUARDED = rtlib.guarded()


def version() -> str:
    """The kit's line, as `rt version` prints it."""
    return subprocess.run(["rt", "version"], capture_output=True, text=True, check=True).stdout.strip()


def tool(name: str, *words: str) -> str:
    """What a tool of the kit's clang prints: `clang` is each of them, by the name that it is called by."""
    return subprocess.run([name, *words], executable=CLANG, capture_output=True, text=True, check=True).stdout


def run(words: List[str], **how: object) -> None:
    """Runs a command that ends with this process. Raises CalledProcessError, whose `stdout` has what it said."""
    subprocess.run([*GUARDED, *words], stdin=subprocess.DEVNULL, stdout=subprocess.PIPE, stderr=subprocess.STDOUT, text=True, check=True, **how)
