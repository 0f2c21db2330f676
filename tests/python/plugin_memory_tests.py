"""The pytest plugin, where a suite remembers what its searches find. Needs Hypothesis and Python 3.11."""
import re
import shutil

import pytest
from services import Lines, serving

pytest.importorskip("hypothesis")
pytest.importorskip("tomllib")
INI = "[pytest]\ntoxi_faults = kept/faults\n"
OPTIONS = "within=30.0"
FIND = 'max_found=1, runs=5, faults=["closed"], stream="downstream"'
# A client of the suite's own, which is mended between two runs.
TESTS = f"""
import pytest
from client import client
def test_search(toxi, toxi_upstreams):
    result = toxi.search(toxi_upstreams, client, {OPTIONS}).find({FIND})
    print(result)
    result.require_none()
def test_wide(toxi_module, toxi_upstreams):
    assert toxi_module.find_fault(toxi_upstreams, client, {OPTIONS}, runs=5, kinds=["limit_data"], stream="downstream") is None
"""


@pytest.fixture
def suite(run_pytest, tmp_path):
    with serving(Lines) as server:
        conftest = f"import pytest\n@pytest.fixture\ndef toxi_upstreams():\n    return {{'shop': {server.address!r}}}\n"

        def start(client, *arguments):
            mended = f"import clients\ndef client(addresses):\n    return clients.{client}(addresses)\n"
            return run_pytest({"pytest.ini": INI, "conftest.py": conftest, "client.py": mended, "sub/test_it.py": TESTS}, *arguments)

        yield start


def test_what_a_test_finds_is_run_first(suite, tmp_path):
    printed = suite("patient_cut_body", "sub")
    assert "2 failed" in printed
    names = sorted(folder.name for folder in (tmp_path / "kept" / "faults").iterdir())
    assert [re.sub("-[0-9a-f]{8}$", "", name) for name in names] == ["sub_test_it.py__test_search", "sub_test_it.py__test_wide"]
    (file,) = (tmp_path / "kept" / "faults" / names[0]).iterdir()
    assert f"remembered in {file}\n" in printed
    assert f"fails: {file} (wrong answer)\n" in suite("patient_cut_body", "sub", "-k", "search")
    mended = suite("correct", "sub", "-rP")
    assert "2 passed" in mended
    assert f"mended: {file} (wrong answer)\n" in mended
    assert file.exists()


def test_the_test_that_is_handed_over_takes_the_fixture_of_the_suite(suite, tmp_path):
    printed = suite("patient_cut_body", "sub", "-k", "search")
    found = re.search(r"^sh (\S+)/again.sh$", printed, re.M)[1]
    shutil.copytree(found, tmp_path / "found")
    (tmp_path / "found" / "proxies.json").write_text('[{"name": "shop", "upstream": "127.0.0.1:1", "listen": "127.0.0.1:0", "enabled": true}]')
    printed = suite("patient_cut_body", "found")
    assert "AssertionError: wrong answer under " in printed and "1 failed" in printed
    assert "1 passed" in suite("correct", "found")
