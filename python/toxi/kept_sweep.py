"""A sweep of a fixture, with the folder of its files."""
from dataclasses import dataclass
from pathlib import Path

from .sweep_table import Sweep


@dataclass(frozen=True)
class KeptSweep:
    """A sweep whose table is kept in a folder. `str()` is what the section of a red test shows of it."""

    sweep: Sweep
    folder: Path

    def write_files(self) -> None:
        """Writes the table as JSON and as a page. The folder and those above it are made."""
        self.folder.mkdir(parents=True, exist_ok=True)
        for path, text in ((self.folder / "table.json", self.sweep.json_text()), (self._page, self.sweep.page_text())):
            path.write_text(text, encoding="utf-8", errors="backslashreplace")

    @property
    def _page(self) -> Path:
        return self.folder / "table.html"

    def __str__(self) -> str:
        """The table, the rule that makes the first of its failures again, and where the page is."""
        rules = [f"its rule: {row.rule!r}" for row in self.sweep.failures[:1]]
        return "\n".join([str(self.sweep), *rules, f"page {self._page}"])
