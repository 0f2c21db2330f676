"""A shim before the C library of the program under test, by which the system does what a test can't bring about otherwise: the object of the program is linked
once more, with the shim."""
import filecmp
import functools
import os
import sys
import tempfile
from pathlib import Path

from .waiting import check

HERE = Path(__file__).resolve().parent
SOURCE = HERE / "shim.c"
WRAPPED = ("getaddrinfo", "connect", "epoll_ctl", "epoll_wait", "read", "recv", "malloc", "realloc", "pthread_create")


def object_of(program):
    """What the program was linked of, beside it."""
    return Path(os.path.realpath(program)).parent / f"toxi-{os.uname().machine}.o"


@functools.cache
def shimmed(program):
    """The path of the program with the shim, which is gone with this process."""
    sys.path.insert(0, str(HERE.parent.parent / "packaging"))
    from debian_files import files_for
    from machines import MACHINES
    from static_link import compile_c, link

    files = files_for(next(each for each in MACHINES if each.name == os.uname().machine))
    folder = Path(shimmed.folder.name)
    plain, made = folder / "plain", folder / "toxi"
    link(files, [object_of(program)], plain)
    check(filecmp.cmp(plain, program, shallow=False), f"{object_of(program)} isn't of {program}")
    link(files, [object_of(program), compile_c(files, SOURCE, folder / "shim.o")], made, [f"--wrap={name}" for name in WRAPPED])
    return str(made)


shimmed.folder = tempfile.TemporaryDirectory()


def with_shim(steps):
    """A case of the program with the shim. It is left out without what the program was linked of, which a released one has no more."""

    @functools.wraps(steps)
    def run(program, folder):
        if object_of(program).exists():
            steps(shimmed(program), folder)
        else:
            print(f"{steps.__name__}: left out, since the object of the program isn't there")

    return run


def environment(**told):
    """The environment of a program with the shim. What each variable turns on stands in the shim's source."""
    return {**os.environ, **{name: str(value) for name, value in told.items()}}
