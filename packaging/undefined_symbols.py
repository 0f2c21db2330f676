"""What the object of the program calls outside of itself, and what gives it. A static program shows no imports, by which `rt ci` holds a dynamic one to
HANDLES: so each name stands in a list that is read before it grows."""
import tempfile
from pathlib import Path
from typing import Dict, Iterator, List, Set

import kit
from debian_files import DebianFiles
from static_link import NATIVE, archives_of, compile_all

LIST = NATIVE / "symbols"


def names_in(path: Path, which: str) -> Set[str]:
    """The global names that an object or an archive defines or leaves undefined: `which` is `--defined-only` or `--undefined-only`."""
    printed = kit.tool("llvm-nm", "--extern-only", "--format=just-symbols", which, str(path))
    return {line for line in printed.splitlines() if line and not line.endswith(":")}


def given(program: Path, files: DebianFiles) -> Dict[str, str]:
    """The undefined names of an object, each with the file that the linker takes it from."""
    with tempfile.TemporaryDirectory() as scratch:
        native = compile_all(files, Path(scratch))
        defined = {f"{each.stem}.c": names_in(each, "--defined-only") for each in native}
    defined.update((each.name, names_in(each, "--defined-only")) for each in archives_of(files))
    return {name: next((giver for giver, names in defined.items() if name in names), "nothing") for name in names_in(program, "--undefined-only")}


def listed(machine: str) -> Dict[str, str]:
    """The names of the list that the object of this machine may have."""
    return {name: giver for name, giver, *only in rows() if not only or machine in only}


def rows() -> Iterator[List[str]]:
    for line in LIST.read_text(encoding="utf-8").splitlines():
        words = line.split("#")[0].split()
        if words:
            yield words


def differences(program: Path, files: DebianFiles) -> List[str]:
    """How an object differs from the list, in lines."""
    found, known = given(program, files), listed(files.machine.name)
    lines = [f"{name} is new, and {found[name]} gives it" for name in sorted(found.keys() - known.keys())]
    lines += [f"{name} is listed, and not there" for name in sorted(known.keys() - found.keys())]
    lines += [f"{name} comes from {found[name]}, and not from {known[name]}" for name in sorted(found.keys() & known.keys()) if found[name] != known[name]]
    return lines
