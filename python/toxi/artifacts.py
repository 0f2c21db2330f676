"""The files of red tests, kept by the test's id and attempt."""
import hashlib
import re
import shutil
from pathlib import Path
from typing import Iterable

from .runs import Position, Run

# Longer names are cut. The system takes 255 bytes.
MAX_NAME = 120


def safe_name(text: str) -> str:
    """A text as the name of a file. One that has to be changed has a few digits of its sum behind it, so that two texts have two names."""
    safe = re.sub(r"[^\w.\[\]-]", "_", text, flags=re.ASCII)[:MAX_NAME]
    if safe == text and safe.strip("."):
        return safe
    return f"{safe}-{hashlib.sha256(text.encode(errors='surrogatepass')).hexdigest()[:8]}"


def attempt_folder(folder: Path, test_id: str) -> Path:
    """A new folder for a test: `<file>/<test>/<attempt>` below `folder`, where attempts count from 1. Those of earlier sessions stay."""
    path, *names = test_id.split("::")
    parent = folder.joinpath(*map(safe_name, path.split("/")), safe_name("::".join(names) or "module"))
    attempt = 1
    while True:
        target = parent / str(attempt)
        try:
            target.mkdir(parents=True)
        except FileExistsError:
            attempt += 1
        else:
            return target


def keep_run(run: Run, target: Path, since: Position, page: Path) -> None:
    """Copies into a folder the files of a run, its logs, but for those of links that had ended at a position, and its page, if it has one."""
    _copy(run.files, target)
    if run.log is not None:
        _copy(run.logs(since), target / run.log.name)
    if page.exists():
        shutil.copy2(page, target / run.page_path().name)


def _copy(files: Iterable[Path], target: Path) -> None:
    target.mkdir(parents=True, exist_ok=True)
    for file in files:
        shutil.copy2(file, target)
