"""The settings of the pytest plugin: marks, options, keys of the ini and variables."""
import os
import re
import subprocess
from types import SimpleNamespace

import pytest
from conftest import PYTEST

SHOWN = """
import pytest
{0}
def test_it(toxi):
    served = toxi({{"shop": "127.0.0.1:1"}})
    print("seed", toxi.seed, "words", served.command)
"""
RED = "def test_red(toxi):\n    toxi({'shop': '127.0.0.1:1'})\n    assert False\n"
MARK = "@pytest.mark.toxi(seed=1, workers=1)"
OPTIONS = ("--toxi-seed", "2", "--toxi-workers", "2")
INI = "toxi_seed = 3\ntoxi_workers = 3\n"
VARIABLES = {"TOXI_SEED": "4", "TOXI_WORKERS": "4"}


@pytest.fixture
def run(tmp_path):
    """Runs pytest over a test. Gives its status and all that it printed."""

    def start(test, *arguments, ini="", variables=None):
        (tmp_path / "pytest.ini").write_text(f"[pytest]\n{ini}")
        (tmp_path / "test_it.py").write_text(test)
        command = [*PYTEST, f"--basetemp={tmp_path / 'base'}", "-rP", *arguments]
        ran = subprocess.run(command, cwd=tmp_path, env={**os.environ, **(variables or {})}, capture_output=True, text=True, check=False)
        return SimpleNamespace(status=ran.returncode, text=ran.stdout + ran.stderr)

    return start


def given(ran):
    """The seed of the fixture, and the number of workers of what it started."""
    assert ran.status == 0, ran.text
    found = re.search(r"^seed (\d+) words .*'--workers', '(\d+)'", ran.text, re.M)
    return int(found[1]), int(found[2])


def test_the_order_of_settings(run):
    assert given(run(SHOWN.format(MARK), *OPTIONS, ini=INI, variables=VARIABLES)) == (1, 1)
    assert given(run(SHOWN.format(""), *OPTIONS, ini=INI, variables=VARIABLES)) == (2, 2)
    assert given(run(SHOWN.format(""), ini=INI, variables=VARIABLES)) == (3, 3)
    assert given(run(SHOWN.format(""), variables=VARIABLES)) == (4, 4)


def test_a_mark_of_a_module(run):
    test = SHOWN.replace("toxi)", "toxi_module)").replace("toxi(", "toxi_module(").replace("toxi.seed", "toxi_module.seed")
    assert given(run(test.format("pytestmark = pytest.mark.toxi(seed=7, workers=2)"), *OPTIONS)) == (7, 2)


def test_wrong_settings(run):
    for mark in ("@pytest.mark.toxi(7)", "@pytest.mark.toxi(sead=7)"):
        assert "@pytest.mark.toxi takes seed= and workers=" in run(SHOWN.format(mark)).text
    assert "TOXI_SEED is 'x', no whole number" in run(SHOWN.format(""), variables={"TOXI_SEED": "x"}).text


def test_the_header(run):
    assert re.search(r"^toxi: \d\S*, seeds are drawn, no workers$", run(SHOWN.format("")).text, re.M)
    assert re.search(r"^toxi: \d\S*, seed 2, 2 workers$", run(SHOWN.format(MARK), *OPTIONS).text, re.M)


def test_artifacts_by_the_ini(run, tmp_path):
    run(RED, ini="toxi_artifacts = kept\n")
    assert os.listdir(tmp_path / "kept" / "test_it.py" / "test_red") == ["1"]


def test_artifacts_that_cannot_be_kept(run, tmp_path):
    (tmp_path / "file").write_text("")
    for ran in (run(RED, "--toxi-artifacts", "file/kept"), run(RED, ini="toxi_artifacts = file\n")):
        assert ran.status == pytest.ExitCode.USAGE_ERROR and f"{tmp_path / 'file'} is no folder" in ran.text
        assert "test_red" not in ran.text
