#!/usr/bin/env python3
"""Makes the wheel of the Python package with the program in it, its man page and its completions, and prints its name. What it says of itself is that of
python/pyproject.toml. The same input gives the same wheel."""
import argparse
import base64
import hashlib
import zipfile
from pathlib import Path

from metadata import PACKAGE, PYTHON, metadata, project_table, version_of

# A static program runs beside any C library. These are the oldest that pip has a name for.
PLATFORMS = ("manylinux_2_17", "manylinux2014", "musllinux_1_1")
# What of the tree's `share` a wheel has: the man page and the completions.
SHARED = ("bash-completion", "fish", "man", "zsh")
FILE = 0o100644
EXECUTABLE = 0o100755


def entry_points(project):
    """The file entry_points.txt."""
    groups = {"console_scripts": project["scripts"], **project["entry-points"]}.items()
    return "\n".join(f"[{group}]\n" + "".join(f"{name} = {place}\n" for name, place in points.items()) for group, points in groups)


def tag(machine):
    """The tag of the wheel's name, which stands for one of each platform."""
    return "py3-none-" + ".".join(f"{platform}_{machine}" for platform in PLATFORMS)


def wheel_file(machine):
    """The file WHEEL."""
    tags = "".join(f"Tag: py3-none-{platform}_{machine}\n" for platform in PLATFORMS)
    return f"Wheel-Version: 1.0\nGenerator: toxi packaging/wheel.py\nRoot-Is-Purelib: false\n{tags}"


def contents(project, version, machine, tree):
    """The name, bytes and mode of each file but RECORD. pip puts the program among the commands of the environment, and `share` beside their folder, where
    `man` and the shells look."""
    name = f"{project['name']}-{version}"
    for path in sorted(PACKAGE.rglob("*")):
        if path.is_file() and "__pycache__" not in path.parts:
            yield f"toxi/{path.relative_to(PACKAGE)}", path.read_bytes(), FILE
    yield f"{name}.data/scripts/toxi", (tree / "bin" / "toxi").read_bytes(), EXECUTABLE
    for folder in SHARED:
        for path in sorted((tree / "share" / folder).rglob("*")):
            if path.is_file():
                yield f"{name}.data/data/{path.relative_to(tree)}", path.read_bytes(), FILE
    yield f"{name}.dist-info/METADATA", metadata(project, version).encode(), FILE
    yield f"{name}.dist-info/WHEEL", wheel_file(machine).encode(), FILE
    yield f"{name}.dist-info/entry_points.txt", entry_points(project).encode(), FILE
    yield f"{name}.dist-info/licenses/LICENSE", (PYTHON / "LICENSE").read_bytes(), FILE
    yield f"{name}.dist-info/licenses/NOTICES", (tree / "share" / "doc" / "toxi" / "NOTICES").read_bytes(), FILE


def recorded(name, content):
    """A file's line in RECORD."""
    digest = base64.urlsafe_b64encode(hashlib.sha256(content).digest()).rstrip(b"=").decode()
    return f"{name},sha256={digest},{len(content)}\n"


def put(wheel, name, content, mode, date):
    info = zipfile.ZipInfo(name, (*map(int, date.split("-")), 0, 0, 0))
    info.external_attr = mode << 16
    # Unix, wherever it is made.
    info.create_system = 3
    wheel.writestr(info, content, zipfile.ZIP_DEFLATED, 9)


def arguments():
    parser = argparse.ArgumentParser(description=__doc__)
    parser.add_argument("tree", type=Path, help="the folder that packaging/tree has made of the program")
    parser.add_argument("machine", help="what it runs on, as `uname -m` prints it")
    parser.add_argument("date", help="the time of each file, as 2026-11-28")
    parser.add_argument("folder", type=Path, help="where the wheel is put")
    return parser.parse_args()


def main():
    given = arguments()
    project = project_table()
    version = version_of(PACKAGE)
    name = f"{project['name']}-{version}-{tag(given.machine)}.whl"
    record = f"{project['name']}-{version}.dist-info/RECORD"
    lines = ""
    with zipfile.ZipFile(given.folder / name, "w") as wheel:
        for file, content, mode in contents(project, version, given.machine, given.tree):
            put(wheel, file, content, mode, given.date)
            lines += recorded(file, content)
        put(wheel, record, f"{lines}{record},,\n".encode(), FILE, given.date)
    print(name)


main()
