"""The C library and its neighbours that the program is linked with, from Debian's packages. They are fetched by apt into out/libc, and installed nowhere: so
those of another machine take no foreign architecture of dpkg."""
import hashlib
import os
import re
import shutil
import subprocess
import tempfile
from dataclasses import dataclass
from pathlib import Path
from typing import List

from machines import Machine

ROOT = Path(__file__).resolve().parent.parent
# What gives libc.a with its headers and start files, the kernel's headers, and libgcc with the compiler's headers.
PACKAGES = ("libc6-dev", "linux-libc-dev", "libgcc-12-dev")


class NotFetched(Exception):
    """Debian's packages can't be had."""


@dataclass(frozen=True)
class DebianFiles:
    """The unpacked packages of a machine."""

    machine: Machine
    folder: Path

    @property
    def headers(self) -> List[Path]:
        """Where the compiler looks for headers, in this order."""
        include = self.folder / "usr" / "include"
        return [self.compiler / "include", include / self.machine.triple, include]

    @property
    def libraries(self) -> Path:
        """The folder of libc.a and of the start files."""
        return self.folder / "usr" / "lib" / self.machine.triple

    @property
    def compiler(self) -> Path:
        """The folder of libgcc.a."""
        return next(self.folder.glob("usr/lib/gcc/*/*/libgcc.a")).parent

    @property
    def licences(self) -> List[Path]:
        """Debian's text on the licences of the C library, and the one that most of it has."""
        return [self.folder / "usr" / "share" / "doc" / "libc6-dev" / "copyright", Path("/usr/share/common-licenses/LGPL-2.1")]

    def packages(self) -> List[str]:
        """A line for each package: its name, version, architecture and sum."""
        return (self.folder / "packages").read_text(encoding="utf-8").splitlines()


def files_for(machine: Machine) -> DebianFiles:
    """The files of a machine, fetched at the first call in a clone. Raises NotFetched."""
    folder = ROOT / "out" / "libc" / machine.debian
    if not has_packages(folder):
        folder.parent.mkdir(parents=True, exist_ok=True)
        with tempfile.TemporaryDirectory(dir=folder.parent) as scratch:
            made = Path(scratch, machine.debian)
            fetch(machine, made, Path(scratch, "apt"))
            shutil.rmtree(folder, ignore_errors=True)
            made.rename(folder)
    return DebianFiles(machine, folder)


def has_packages(folder: Path) -> bool:
    """Whether these packages were unpacked there, and not those of an earlier source."""
    try:
        lines = (folder / "packages").read_text(encoding="utf-8").splitlines()
    except FileNotFoundError:
        return False
    return {line.split()[0] for line in lines} == set(PACKAGES)


def fetch(machine: Machine, folder: Path, scratch: Path) -> None:
    """Downloads the packages by an apt with lists of its own, and unpacks them."""
    for name in ("state/lists/partial", "cache/archives/partial", "packages"):
        (scratch / name).mkdir(parents=True)
    (scratch / "state" / "status").touch()
    settings = {
        "APT::Architecture": machine.debian,
        "APT::Architectures": machine.debian,
        "APT::Sandbox::User": "",
        "Acquire::Languages": "none",
        "Acquire::Retries": 3,
        "Dir::State": scratch / "state",
        "Dir::State::status": scratch / "state" / "status",
        "Dir::Cache": scratch / "cache",
    }
    apt = ["apt-get", "-qq", *(word for name, value in settings.items() for word in ("-o", f"{name}={value}"))]
    try:
        run(apt + ["update"], scratch / "packages")
        run(apt + ["download", *PACKAGES], scratch / "packages")
    except NotFetched as why:
        raise NotFetched(f"Debian's packages {', '.join(PACKAGES)} for {machine.debian} can't be had: {why}") from None
    folder.mkdir()
    lines = []
    for package in sorted((scratch / "packages").iterdir()):
        run(["dpkg-deb", "--extract", str(package), str(folder)], scratch)
        lines.append(f"{described(package)} {hashlib.sha256(package.read_bytes()).hexdigest()}\n")
    (folder / "packages").write_text("".join(lines), encoding="utf-8")


def described(package: Path) -> str:
    """The name, version and architecture of a package, which its file's name has."""
    name, version, architecture = re.sub(r"\.deb$", "", package.name).split("_")
    return f"{name} {version.replace('%3a', ':')} {architecture}"


def run(words: List[str], folder: Path) -> None:
    try:
        done = subprocess.run(words, cwd=folder, stdin=subprocess.DEVNULL, capture_output=True, text=True, check=False, env={**os.environ, "LC_ALL": "C"})
    except OSError as error:
        raise NotFetched(f"{words[0]}: {error.strerror}") from error
    if done.returncode:
        raise NotFetched(f"{words[0]}: {(done.stderr.strip() or 'failed').splitlines()[0]}")
