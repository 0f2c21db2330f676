"""Compiles the C of packaging/native and links it with an object into a static program, by the compiler and the linker of the kit."""
import tempfile
from pathlib import Path
from typing import List, Sequence

import kit
from debian_files import ROOT, DebianFiles

NATIVE = ROOT / "packaging" / "native"
SOURCES = tuple(sorted(NATIVE.glob("*.c")))
COMPILE = "--no-default-config -nostdinc -std=gnu17 -D_GNU_SOURCE -O2 -Wall -Wextra -Werror -fPIE -ffunction-sections -fdata-sections -c".split()
# A static program that is loaded at any address.
LINK = (
    "-static -pie --no-dynamic-linker -z text -z relro -z now -z noexecstack --gc-sections --eh-frame-hdr --build-id=sha1 "
    "--no-dependent-libraries --fatal-warnings --threads=1 --strip-all --wrap=main"
).split()


def compile_c(files: DebianFiles, source: Path, made: Path) -> Path:
    """Compiles a C file for a machine."""
    headers = [word for folder in files.headers for word in ("-isystem", str(folder))]
    kit.run([str(kit.CLANG), f"--target={files.machine.triple}", *headers, *COMPILE, str(source), "-o", str(made)])
    return made


def compile_all(files: DebianFiles, folder: Path) -> List[Path]:
    """The objects of packaging/native, each named after its source."""
    return [compile_c(files, source, folder / f"{source.stem}.o") for source in SOURCES]


def archives_of(files: DebianFiles) -> List[Path]:
    """What gives the rest, in the order in which the linker looks."""
    return [files.libraries / "libc.a", files.compiler / "libgcc.a", files.compiler / "libgcc_eh.a"]


def link(files: DebianFiles, objects: Sequence[Path], program: Path, options: Sequence[str] = ()) -> None:
    """Links objects, one of which defines `main`, with those of packaging/native. `options` are further ones of the linker."""
    first = [files.libraries / "rcrt1.o", files.libraries / "crti.o", files.compiler / "crtbeginS.o"]
    last = [files.compiler / "crtendS.o", files.libraries / "crtn.o"]
    with tempfile.TemporaryDirectory() as scratch:
        # The linker's name in the program: no folder of this machine is in it.
        native = compile_all(files, Path(scratch))
        inputs = [*first, *objects, *native, "--start-group", *archives_of(files), "--end-group", *last]
        kit.run([str(kit.CLANG.parent / "ld.lld"), "-m", files.machine.emulation, *LINK, *options, "-o", str(program), *map(str, inputs)])
