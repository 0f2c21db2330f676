"""The section of a test's report: what is needed to see the same faults again."""
import os
import shlex
import shutil
import sys
from dataclasses import dataclass, field
from pathlib import Path
from typing import Dict, List, Optional, Union

import pytest

from .artifacts import keep_run, safe_name
from .errors import ToxiError
from .factory import Begun, Shown, ToxiFactory
from .found import Found
from .kept_sweep import KeptSweep
from .runs import Position, Run
from .served import page_of

# With more proxies of a wider fixture in a test, as under Hypothesis, the last ones are shown: the failing example is run last.
MAX_SHOWN = 5
# pytest's own file that `python -m pytest` runs.
MODULE = "__main__.py"
# Passed on by the command that is shown.
PASSED_ON = ("--toxi-program", "--toxi-workers")


@dataclass
class Fixture:
    """A factory, the name of its fixture, and the paths of the modules whose tests have used it."""

    name: str
    factory: ToxiFactory
    is_wide: bool
    modules: Dict[Path, None] = field(default_factory=dict)


@dataclass(frozen=True)
class Section:
    """What a fixture has to say of a test, and of a red one where it was kept."""

    item: pytest.Item
    fixture: Fixture
    begun: Begun

    def text(self, is_red: bool, kept: Optional[Path]) -> str:
        """The lines of the section. A red test's page is written, and its files are kept in a folder if one is given."""
        every = self.fixture.factory.shown(self.begun)
        shown = every[-MAX_SHOWN:] if self.fixture.is_wide else every
        lines = [self._command(shown)]
        if len(shown) < len(every):
            lines.append(f"{len(every) - len(shown)} earlier ones of {self.fixture.name} aren't shown")
        lines += [each.served.report(each.since) for each in shown]
        found = self.fixture.factory.found(self.begun)
        lines += map(str, found)
        pages = [page for each in shown for page in self._pages(each)] if is_red else []
        lines += pages
        if kept is not None:
            lines.append(self._keep(shown, found, kept, lines))
        return "\n".join(lines)

    def _command(self, shown: List[Shown]) -> str:
        """The command that runs the test again under its seed, from where pytest was started.

        Under a wider fixture a link's number depends on the tests before, so it runs the whole module, and before it those that used the
        same proxies.
        """
        # The path in the id of a test outside pytest's root isn't relative to that root.
        names = self.item.nodeid.split("::")[1:]
        words = ["::".join([self._from_here(self.item.path), *names])]
        if self.fixture.is_wide:
            before = self.fixture.modules if any(each.served in self.begun.positions for each in shown) else ()
            words = list(map(self._from_here, dict.fromkeys([*before, self.item.path])))
        words += ["--toxi-seed", str(self.fixture.factory.seed)]
        for option in PASSED_ON:
            value = self.item.config.getoption(option)
            # Behind a space pytest takes the path for that of a test when it looks for its ini.
            words += [] if value is None else [f"{option}={value}"]
        return shlex.join([*_started(self.item.config), *words])

    def _from_here(self, path: Path) -> str:
        return os.path.relpath(path, self.item.config.invocation_params.dir)

    def _pages(self, shown: Shown) -> List[str]:
        """A line for each run that has logs: where its page is."""
        return [self._page_line(run, shown.since) for run in shown.runs if run.logs(shown.since)]

    def _page_line(self, run: Run, since: Position) -> str:
        """Writes a page. A report must not fail, so what goes wrong is told in place of the path."""
        try:
            return f"page {page_of(run, self._page_path(run), since, self.item.nodeid)}"
        except (OSError, ToxiError) as error:
            return f"page not written: {error}"

    def _page_path(self, run: Run) -> Path:
        """Beside the logs. Under a wider fixture each test has a page of its own."""
        path = run.page_path()
        return path.with_name(f"{path.stem}-{safe_name(self.item.nodeid)}{path.suffix}") if self.fixture.is_wide else path

    def _keep(self, shown: List[Shown], found: List[Union[Found, KeptSweep]], kept: Path, lines: List[str]) -> str:
        """Keeps the files, logs and pages, the folders of what was found, and the lines. Returns the line that tells where."""
        try:
            for each in shown:
                target = kept / f"{self.fixture.name}-{each.number}"
                for run in each.runs:
                    keep_run(run, target, each.since, self._page_path(run))
            for result in found:
                shutil.copytree(result.folder, kept / f"{self.fixture.name}-{result.folder.name}")
            (kept / f"{self.fixture.name}.txt").write_text("\n".join([*lines, ""]), encoding="utf-8")
        except (OSError, ToxiError) as error:
            return f"not kept: {error}"
        return f"kept {kept}"


def _started(config: pytest.Config) -> List[str]:
    """How pytest was started. A virtual environment with the system's pytest has no `pytest` of its own on the PATH, and needs `python -m pytest`.

    A worker of pytest-xdist has the command line of the one that started it.
    """
    line: List[str] = getattr(config, "workerinput", {}).get("mainargv", sys.argv)
    return [Path(sys.executable).name, "-m", "pytest"] if line and Path(line[0]).name == MODULE else ["pytest"]
