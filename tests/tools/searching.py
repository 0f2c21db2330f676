"""A search of one row: what it needs, its command, and its result."""
import json
import os
import pathlib
import re
import subprocess
import sys
import tempfile
from typing import Any, Dict, List, Optional

from judged import FAILED
from row import PYTHON, Row, Tool

JUDGED = pathlib.Path(__file__).resolve().parent / "judged.py"
VERSION = re.compile(r"\d+(?:\.\d+)+\w*")
# The statuses of `toxi-find` with nothing found, and with something.
SEARCHED = (0, 1)


def version_of(tool: Tool) -> Optional[str]:
    """The version that a tool tells, or none where it isn't installed."""
    try:
        ran = subprocess.run(tool.version, stdout=subprocess.PIPE, stderr=subprocess.STDOUT, text=True, check=True)
    except (OSError, subprocess.CalledProcessError):
        return None
    found = VERSION.search(ran.stdout)
    return found[0] if found else None


def missing_packages(row: Row) -> List[str]:
    """The packages that a row needs and that aren't installed."""
    tool = [] if version_of(row.tool) else [row.tool.package]
    service = [] if row.service.is_installed else [row.service.package]
    return [*tool, *service]


def search_result(row: Row, package: str, program: str, budget: float) -> Dict[str, Any]:
    """What `toxi-find` writes as JSON. Raises `RuntimeError` where the search can't be made."""
    environment = {**os.environ, "PYTHONPATH": package, "TOXI": program}
    with tempfile.TemporaryDirectory(prefix="toxi-tools-") as name:
        folder = pathlib.Path(name)
        if row.build:
            subprocess.run(row.build, cwd=folder, check=True)
        with row.service.start(folder) as address:
            command = _search_command(row, folder, address, budget)
            ran = subprocess.run(command, cwd=folder, env=environment, stdout=subprocess.DEVNULL, stderr=subprocess.PIPE, text=True, check=False)
        if ran.returncode not in SEARCHED:
            raise RuntimeError(ran.stderr.strip())
        result: Dict[str, Any] = json.loads((folder / "result.json").read_text(encoding="utf-8"))
        return result


def _search_command(row: Row, folder: pathlib.Path, address: str, budget: float) -> List[str]:
    host, _, port = address.rpartition(":")
    bounds = ["--within", str(row.within), "--budget", str(budget), "--max-found", str(row.max_found)]
    faults = [word for fault in row.faults for word in ("--fault", fault)]
    before = ["--before", row.before.format(host=host, port=port)] if row.before else []
    written = ["--json", str(folder / "result.json"), "--folder", str(folder / "found")]
    judged = [PYTHON, "-I", "-S", str(JUDGED), str(folder / "answer"), *row.command]
    options = [*bounds, *faults, *before, *written, "--allow-status", str(FAILED)]
    return [sys.executable, "-m", "toxi.find_command", "--upstream", f"server={address}", *options, "--", *judged]
