"""The machines that Toxi is linked for."""
from dataclasses import dataclass


@dataclass(frozen=True)
class Machine:
    """A processor under Linux."""

    name: str
    """As `uname -m` prints it."""
    target: str
    """The kit's name, for `rattle build --target`."""
    cpu: str
    """The oldest processor of that kind, for `rattle build --cpu`."""
    debian: str
    """Debian's name of the architecture."""
    emulation: str
    """The linker's name."""

    @property
    def triple(self) -> str:
        """The target of C, after which Debian names the folders of its libraries."""
        return f"{self.name}-linux-gnu"


MACHINES = (
    Machine("x86_64", "x86_64-unknown-linux-gnu", "x86-64", "amd64", "elf_x86_64"),
    Machine("aarch64", "aarch64-unknown-linux-gnu", "generic", "arm64", "aarch64linux"),
)
