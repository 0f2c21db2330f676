"""A pytest of its own that runs small tests."""
import subprocess
import sys

import pytest

PYTEST = [sys.executable, "-B", "-m", "pytest", "-p", "toxi.pytest_plugin", "-p", "no:cacheprovider"]


@pytest.fixture
def run_pytest(tmp_path):
    """Writes files, by their names in `tmp_path`, and runs pytest over them. Gives what it printed."""

    def start(files, *arguments, folder=tmp_path):
        for name, text in {"pytest.ini": "[pytest]\n", **files}.items():
            (tmp_path / name).parent.mkdir(exist_ok=True)
            (tmp_path / name).write_text(text)
        command = [*PYTEST, f"--basetemp={tmp_path / 'base'}", *arguments]
        return subprocess.run(command, cwd=folder, capture_output=True, text=True, check=False).stdout

    return start
