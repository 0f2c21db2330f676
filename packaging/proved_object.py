"""The object of the program for a machine: the crate `toxi`, checked and compiled for that machine over libraries that `rt ci` has proved, which need no
machine."""
import contextlib
import hashlib
import os
import re
import shutil
import subprocess
from pathlib import Path
from typing import Tuple

import kit
from machines import Machine

# What this machine has built, by a sum of all that it was made from.
KEPT = Path(os.environ.get("XDG_CACHE_HOME") or os.path.expanduser("~/.cache"), "toxi", "objects")
CRATE = "toxi"
# How many modules are checked at once.
JOBS = "2"


class NotBuilt(Exception):
    """The crate isn't proved for a machine, or not compiled. Its text is what the kit said."""


def crate_of(copy: Path) -> "kit.rtlib.Crate":
    """The crate of the program in a copy of the repository."""
    return next(each for each in kit.rtlib.crates_below(str(copy)) if each.name == CRATE)


def build(copy: Path, machine: Machine, made: Path) -> str:
    """Makes the object, or takes the one that was kept. Returns its verdict line. Raises NotBuilt."""
    crate = crate_of(copy)
    kept = KEPT / hashlib.sha256(repr((kit.version(), crate.stamp(), machine)).encode()).hexdigest()
    with contextlib.suppress(OSError):
        shutil.copyfile(f"{kept}.o", made)
        return Path(f"{kept}.verdict").read_text(encoding="utf-8")
    verdict = check_and_compile(crate, machine, made)
    # Where no file can be written, the next call builds it again.
    with contextlib.suppress(OSError):
        KEPT.mkdir(parents=True, exist_ok=True)
        for name, text in ((".o", made.read_bytes()), (".verdict", verdict.encode())):
            scratch = Path(f"{kept}.{os.getpid()}")
            scratch.write_bytes(text)
            scratch.rename(f"{kept}{name}")
    return verdict


def check_and_compile(crate: "kit.rtlib.Crate", machine: Machine, made: Path) -> str:
    words = crate.words(["--target", machine.target, "--cpu", machine.cpu, "--jobs", JOBS], keeps=False)
    command = [*kit.GUARDED, kit.rtlib.RATTLE, "build", *words, "--toolchain", str(kit.KIT / "toolchain"), "--backend", "llvm", "-o", str(made)]
    done = subprocess.run(command, cwd=crate.folder, stdin=subprocess.DEVNULL, stdout=subprocess.PIPE, stderr=subprocess.STDOUT, text=True, check=False)
    verdict = re.search(rf"^logic=proved .*\btarget={machine.target} .*$", done.stdout, re.M)
    if done.returncode or not verdict:
        raise NotBuilt(done.stdout)
    return verdict[0]
