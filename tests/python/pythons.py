"""Prints the path of a Python of each minor version from 3.9 on that this machine has, without that of the Python that runs this."""
import glob
import os
import subprocess
import sys
from typing import Iterator, Optional, Tuple

LEAST = (3, 9)
PATIENCE = 60
Version = Tuple[int, int]


def candidates() -> Iterator[str]:
    """The commands of the PATH, and what pyenv has."""
    for folder in os.environ.get("PATH", os.defpath).split(os.pathsep):
        yield from sorted(glob.glob(os.path.join(glob.escape(folder), "python3.[0-9]*")))
    yield from sorted(glob.glob(os.path.join(os.environ.get("PYENV_ROOT", os.path.expanduser("~/.pyenv")), "versions", "*", "bin", "python3")))


def version_of(python: str) -> Optional[Version]:
    """The minor version of a Python. None where the path is another program, or one that doesn't run."""
    try:
        ran = subprocess.run([python, "-c", "import sys; print(*sys.version_info[:2])"], capture_output=True, text=True, timeout=PATIENCE, check=True)
        major, minor = map(int, ran.stdout.split())
    except (OSError, ValueError, subprocess.SubprocessError):
        return None
    return major, minor


def main() -> None:
    seen = {sys.version_info[:2]}
    for python in candidates():
        version = version_of(python)
        if version is not None and version >= LEAST and version not in seen:
            seen.add(version)
            print(python)


if __name__ == "__main__":
    main()
