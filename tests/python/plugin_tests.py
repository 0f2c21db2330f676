"""The pytest plugin: a red test's report, and the seeds."""
import os
import re
import shlex
import subprocess
import sys

import pytest
from services import Lines, serving

# How these tests start pytest, and how a red test shows it.
STARTED = f"{os.path.basename(sys.executable)} -m pytest"
RED = """
from toxi import Rule, ResetPeer
import socket
def test_red(toxi):
    served = toxi({"shop": "127.0.0.1:1"}, [Rule("shop", [ResetPeer(timeout=0, toxicity=500)])])
    socket.create_connection(served.address("shop")).close()
    served.wait_for_link("shop", 1, 20)
    assert False
def test_green(toxi):
    print("seed", toxi.seed)
def test_without():
    assert False
"""


@pytest.fixture
def run(run_pytest, tmp_path):
    def start(*arguments, folder=tmp_path):
        return run_pytest({"sub/test_red.py": RED}, *arguments, folder=folder)

    return start


def test_red_report(run, tmp_path):
    printed = run("--toxi-seed", "7")
    assert printed.count(" toxi ") == 1
    assert "pytest sub/test_red.py::test_red --toxi-seed 7\n" in printed
    assert re.search(r"^seed 7$", printed, re.M)
    assert re.search(r"^link shop 1 up 0 broken down 0 broken$", printed, re.M)
    assert re.search(r"^total shop 1 up 0 down 0$", printed, re.M)
    command = shlex.split(re.search(r"^\S+ serve .*$", printed, re.M)[0])
    for option in ("--config", "--script"):
        assert os.path.isfile(command[command.index(option) + 1])
    assert sorted(os.listdir(command[command.index("--log") + 1])) == ["shop-1-downstream.log", "shop-1-upstream.log"]
    judge = re.search(r"^find \S+ -name '\*\.log' \| \S+ replay -$", printed, re.M)[0]
    assert subprocess.run(judge, shell=True, capture_output=True, text=True, check=True).stdout.count("unfinished shop 1 ") == 2
    page = re.search(r"^page (\S+)$", printed, re.M)[1]
    with open(page, encoding="utf-8") as text:
        shown = text.read()
    assert shown.startswith("<!DOCTYPE html>")
    assert "<title>sub/test_red.py::test_red</title>" in shown
    assert all(word in shown for word in ("shop", "upstream", "downstream", "unfinished"))


def test_the_shown_command_gives_the_drawn_seed(run, tmp_path):
    printed = run("-k", "red", folder=tmp_path / "sub")
    seed = re.search(r"^seed (\d+)$", printed, re.M)[1]
    shown = re.search(r"^\S+ -m pytest (test_red.py::test_red --toxi-seed \d+)$", printed, re.M)[1]
    assert re.search(rf"^seed {seed}$", run(*shown.split(), folder=tmp_path / "sub"), re.M)


def test_the_shown_command_starts_pytest_as_it_was_started(run, tmp_path):
    assert f"\n{STARTED} sub/test_red.py::test_red --toxi-seed 7\n" in run("--toxi-seed", "7")
    script = tmp_path / "pytest"
    script.write_text(f"#!{sys.executable}\nimport pytest\npytest.main()\n")
    script.chmod(0o755)
    command = [script, "-p", "toxi.pytest_plugin", "-p", "no:cacheprovider", "--toxi-seed", "7", f"--basetemp={tmp_path / 'base'}"]
    printed = subprocess.run(command, cwd=tmp_path, capture_output=True, text=True, check=False).stdout
    assert "\npytest sub/test_red.py::test_red --toxi-seed 7\n" in printed


def test_each_test_draws_its_seed(run):
    seeds = {re.search(r"test_green --toxi-seed (\d+)$", run("-k", "green", "-rP"), re.M)[1] for _ in range(2)}
    assert len(seeds) == 2


def test_program_option(run):
    assert "/nowhere/toxi can't be started" in run("--toxi-program", "/nowhere/toxi")


def test_find_fault(run_pytest, tmp_path):
    pytest.importorskip("hypothesis")
    with serving(Lines) as server:
        test = f"""
from clients import cut_body, whole
SHOP = {{"shop": {server.address!r}}}
def test_cut(toxi):
    assert toxi.find_fault(SHOP, cut_body, within=1.0, budget=300) is None
def test_whole(toxi):
    assert toxi.find_fault(SHOP, whole, within=1.0, runs=5) is None
"""
        printed = run_pytest({"test_find.py": test}, "--toxi-seed", "7", "--toxi-artifacts", "kept")
    assert "1 failed, 1 passed" in printed
    assert "assert <Found: wrong answer in 10 of 10 runs; sh " in printed
    section = printed[printed.index("pytest test_find.py::test_cut --toxi-seed 7\n") :]
    found = re.search(r"^wrong answer in 10 of 10 runs, .*^attributes = \{ bytes = 2 \}\n\nlink shop 1 .*?\nsh (\S+)/again.sh$", section, re.M | re.S)
    assert sorted(os.listdir(found[1])) == sorted(os.listdir(tmp_path / "kept" / "test_find.py" / "test_cut" / "1" / "toxi-found-1"))


def test_search_of_the_fixture(run_pytest, tmp_path):
    pytest.importorskip("hypothesis")
    with serving(Lines) as server:
        test = f"""
from clients import patient_cut_body
def test_cut(toxi):
    toxi.search({{"shop": {server.address!r}}}, patient_cut_body, within=5.0).find(max_found=1).require_none()
"""
        printed = run_pytest({"test_search.py": test}, "--toxi-seed", "7")
    assert "E       AssertionError: wrong answer in 10 of 10 runs, " in printed
    section = printed[printed.index("pytest test_search.py::test_cut --toxi-seed 7\n") :]
    assert re.search(r"^wrong answer in 10 of 10 runs, .*^sh (\S+)/found-1/again.sh$", section, re.M | re.S)


def test_what_check_raises_is_shown_without_frames_of_the_package(run_pytest):
    pytest.importorskip("hypothesis")
    with serving(Lines) as server:
        test = f"""
import functools, itertools
import pytest
from clients import whole
def raises_at(run, runs, *answer):
    if next(runs) >= run:
        raise KeyError("shown")
    return True
@pytest.mark.parametrize("option", ["check", "before"])
@pytest.mark.parametrize("run", [0, 5])
@pytest.mark.parametrize("call", ["find_fault", "sweep_faults"])
def test_it(toxi, call, run, option):
    getattr(toxi, call)({{"shop": {server.address!r}}}, whole, within=1.0, **{{option: functools.partial(raises_at, run, itertools.count())}})
"""
        printed = run_pytest({"test_raises.py": test})
    assert "8 failed" in printed
    assert set(re.findall(r"^(\S+\.py):\d+: ", printed, re.M)) == {"test_raises.py"}
