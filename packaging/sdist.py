#!/usr/bin/env python3
"""Makes the source distribution of the Python package, without the program, and prints its name. It has the package's tests, the changes and the notices. The
same input gives the same archive."""
import argparse
import gzip
import io
import tarfile
from datetime import datetime, timezone
from pathlib import Path

from metadata import PACKAGE, PYTHON, ROOT, metadata, project_table, version_of

TESTS = ROOT / "tests" / "python"


def files_below(folder):
    """The files of a folder, without what Python leaves there."""
    return sorted(path for path in folder.rglob("*") if path.is_file() and "__pycache__" not in path.parts)


def contents(project, version, notices):
    """The name and the bytes of each file."""
    yield "PKG-INFO", metadata(project, version).encode()
    for path in (PYTHON / "pyproject.toml", PYTHON / project["readme"], PYTHON / "LICENSE", ROOT / "CHANGELOG.md", notices):
        yield path.name, path.read_bytes()
    for folder, name in ((PACKAGE, "toxi"), (TESTS, "tests")):
        for path in files_below(folder):
            yield f"{name}/{path.relative_to(folder)}", path.read_bytes()


def arguments():
    parser = argparse.ArgumentParser(description=__doc__)
    parser.add_argument("notices", type=Path, help="the file NOTICES")
    parser.add_argument("date", help="the time of each file, as 2026-11-28")
    parser.add_argument("folder", type=Path, help="where the archive is put")
    return parser.parse_args()


def main():
    given = arguments()
    project = project_table()
    version = version_of(PACKAGE)
    name = f"{project['name']}-{version}"
    instant = int(datetime.fromisoformat(given.date).replace(tzinfo=timezone.utc).timestamp())
    with open(given.folder / f"{name}.tar.gz", "wb") as file, gzip.GzipFile("", "wb", 9, file, 0) as packed:
        with tarfile.open(fileobj=packed, mode="w", format=tarfile.PAX_FORMAT) as archive:
            for place, content in contents(project, version, given.notices):
                info = tarfile.TarInfo(f"{name}/{place}")
                info.size, info.mtime, info.mode = len(content), instant, 0o644
                archive.addfile(info, io.BytesIO(content))
    print(f"{name}.tar.gz")


main()
