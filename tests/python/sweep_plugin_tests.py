"""`toxi.sweep_faults` of the fixture: a red test's table, its command and its files."""
import os
import re

from services import Lines, serving

TESTS = """
from clients import correct, patient_cut_body
def test_red(toxi):
    sweep = toxi.sweep_faults({"shop": UPSTREAM}, patient_cut_body, faults=["closed"], jobs=4)
    assert not sweep.failures
def test_green(toxi):
    sweep = toxi.sweep_faults({"shop": UPSTREAM}, correct, faults=["closed"], most=4)
    assert not sweep.failures
def test_wide(toxi_session):
    toxi_session.sweep_faults({"shop": UPSTREAM}, correct, faults=["closed"], most=4)
    assert False
def test_wide_without(toxi_session):
    assert False
"""


def test_red_and_green_sweeps(run_pytest, tmp_path):
    with serving(Lines) as server:
        tests = TESTS.replace("UPSTREAM", repr(server.address))
        printed = run_pytest({"test_shop.py": tests}, "--toxi-seed", "7", "--toxi-artifacts", "kept")
    assert "3 failed, 1 passed" in printed
    assert "assert not [<shop 1 downstream 2..6 closed: wrong answer>]" in printed
    red = printed.partition("test_wide ")[0]
    assert "pytest test_shop.py::test_red --toxi-seed 7\n" in red
    assert "\ndownstream 2..6 closed: wrong answer\n" in red
    assert "\nits rule: Rule(proxy='shop', toxics=(LimitData(bytes=2),), last=1)\n" in red
    with open(re.search(r"^page (\S+/sweep-1/table\.html)$", red, re.M)[1], encoding="utf-8") as page:
        assert "wrong answer" in page.read()
    kept = tmp_path / "kept" / "test_shop.py" / "test_red" / "1"
    assert sorted(os.listdir(kept / "toxi-sweep-1")) == ["table.html", "table.json"]
    assert "downstream 2..6 closed: wrong answer" in (kept / "toxi.txt").read_text()
    # The second test of the wider fixture has made no sweep.
    assert printed.count("left out: 15 of 19 runs") == 1
