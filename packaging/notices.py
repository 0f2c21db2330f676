#!/usr/bin/env python3
"""Prints the notices of what is linked into the program: the kit's libraries that it stands on, the C library and libgcc, with their licence texts."""
import argparse
import re
from pathlib import Path
from typing import Dict, Iterator, List, Tuple

from debian_files import files_for
from machines import MACHINES


def used_by_us(crates: Path) -> List[str]:
    """The libraries that the crates of the program name, and `std`."""
    lines = [line.split("#")[0] for line in crates.read_text(encoding="utf-8").splitlines()]
    rows = [line.partition(":") for line in lines if ":" in line]
    ours = {head.split()[0] for head, _, _ in rows}
    named = {word for head, _, words in rows if head.startswith("tox") for word in words.split()}
    return sorted(named - ours) + ["std"]


def with_their_own(names: List[str], kit: Path) -> List[str]:
    """These libraries, and those that they use."""
    for name in names:
        text = (kit / "rlibs" / f"{name}.rlib" / "format").read_text(encoding="utf-8")
        names += [used for used in re.findall(r"^dep (\w+)$", text, re.M) if used not in names]
    return sorted(names)


def texts_of(name: str, kit: Path) -> Iterator[Tuple[str, str]]:
    """The licence texts of a library, each with its file's name."""
    for file in sorted((kit / "rattle" / name).iterdir()):
        if file.name.startswith("LICENSE"):
            yield file.name, file.read_text(encoding="utf-8").strip("\n")


def main() -> None:
    parser = argparse.ArgumentParser(description=__doc__)
    parser.add_argument("kit", metavar="KIT", type=Path, help="the kit's folder")
    parser.add_argument("crates", metavar="CRATES", type=Path, help="the file crates.txt")
    arguments = parser.parse_args()
    names = with_their_own(used_by_us(arguments.crates), arguments.kit)
    shared: Dict[str, List[str]] = {}
    for name in names:
        for file, text in texts_of(name, arguments.kit):
            shared.setdefault(text, []).append(f"{name} ({file})")
    for file in files_for(MACHINES[0]).licences:
        shared.setdefault(file.read_text(encoding="utf-8").strip("\n"), []).append(f"the C library, glibc (Debian's {file.name})")
    bare = [name for name in names if not list(texts_of(name, arguments.kit))]
    print("Notices of what is linked into the program toxi: libraries of the Rattle kit, most of them ports of Rust crates, the C library, and libgcc.")
    print(f"\nThe kit has no licence text of its own for these: {', '.join(bare)}. Whoever gives the kit says what holds of them.")
    print("Of libgcc the program has what its compiler calls, under the GCC Runtime Library Exception; Debian's gcc-12-base has its texts.")
    print("The C library is under the LGPL. The objects to link the program with another one lie beside it where it was released: toxi-VERSION-objects.tar.xz.")
    for text, owners in shared.items():
        print(f"\n{'=' * 80}\n{', '.join(owners)}\n{'=' * 80}\n\n{text}")


if __name__ == "__main__":
    main()
