"""The pytest plugin, where a session's searches and sweeps are one section and one page, also under pytest-xdist. Needs Hypothesis."""
import importlib.util
import json
import re
import subprocess
import sys
import xml.dom.minidom

import pytest
from services import Lines, serving

pytest.importorskip("hypothesis")
needs_xdist = pytest.mark.skipif(not importlib.util.find_spec("xdist"), reason="apt-get install python3-pytest-xdist")
FIND = 'runs=5, faults=["closed"], stream="downstream"'
TESTS = f"""
import clients
def test_cut(toxi, upstreams):
    toxi.search(upstreams, clients.patient_cut_body, within=30.0).find(max_found=1, {FIND}).require_none()
def test_right(toxi, upstreams):
    for _ in range(2):
        toxi.search(upstreams, clients.correct, within=30.0).find({FIND}).require_none()
def test_swept(toxi_module, upstreams):
    sweep = toxi_module.sweep_faults(upstreams, clients.correct, faults=["closed"], within=30.0)
    assert not sweep.failures
def test_without_a_search():
    pass
"""
# The tests of one file, and what is told of each.
CLIENTS = ["test_it.py::test_cut", "test_it.py::test_right", "test_it.py::test_right 2", "test_it.py::test_swept"]


@pytest.fixture
def session(run_pytest, tmp_path):
    with serving(Lines) as server:
        conftest = f"import pytest\n@pytest.fixture\ndef upstreams():\n    return {{'shop': {server.address!r}}}\n"
        yield lambda *words: run_pytest({"conftest.py": conftest, "test_it.py": TESTS}, "--toxi-page=page.html", "--toxi-json=results.json", *words)


def require_one_section_and_page(printed, tmp_path):
    section = re.split(r"^=+ toxi =+$", printed, flags=re.M)
    assert len(section) == 2
    lines = section[1].split("\n")[1:]
    assert [re.split(r": (?:nothing|\d+) (?:found|runs) ", line)[0] for line in lines[:4]] == CLIENTS
    assert lines[0].startswith(f"{CLIENTS[0]}: 1 found by ") and lines[1].startswith(f"{CLIENTS[1]}: nothing found by ")
    assert lines[4] == f"page {tmp_path / 'page.html'}"
    xml.dom.minidom.parse(str(tmp_path / "page.html"))
    page = (tmp_path / "page.html").read_text()
    assert "1 of 4 clients are to be mended" in page and all(client in page for client in CLIENTS)
    assert not re.search(r"(src|href)=|url\(|<script", page)
    members = json.loads((tmp_path / "results.json").read_text())["clients"]
    assert [each["about"]["client"] for each in members] == CLIENTS
    ran = subprocess.run([sys.executable, "-m", "toxi.merge_command", tmp_path / "results.json"], capture_output=True, text=True, check=False)
    assert (ran.returncode, ran.stderr) == (1, "")


def test_one_section_and_one_page(session, tmp_path):
    require_one_section_and_page(session(), tmp_path)


@needs_xdist
def test_the_results_of_workers_are_those_of_one_session(session, tmp_path):
    require_one_section_and_page(session("-p", "xdist", "-n", "2"), tmp_path)


@pytest.fixture
def night(run_pytest, tmp_path):
    """A session of a suite that remembers, with a client of its own. Gives what its page tells of each of its clients, by the columns."""
    pytest.importorskip("tomllib")
    with serving(Lines) as server:
        conftest = f"import pytest\n@pytest.fixture\ndef upstreams():\n    return {{'shop': {server.address!r}}}\n"
        tests = f"from client import client\ndef test_client(toxi, upstreams):\n    toxi.search(upstreams, client, within=30.0).find({FIND})\n"

        def start(client):
            files = {"client.py": f"import clients\ndef client(addresses):\n    {client}\n", "conftest.py": conftest, "test_it.py": tests}
            run_pytest({"pytest.ini": "[pytest]\ntoxi_faults = faults\n", **files}, "--toxi-json=night.json", "test_it.py")
            results = tmp_path / "night.json"
            # Another client, so that there are several.
            other = {**json.loads(results.read_text()), "found": [], "remembered": []}
            other["about"] = {**other["about"], "client": "other"}
            (tmp_path / "other.json").write_text(json.dumps(other))
            command = [sys.executable, "-m", "toxi.merge_command", "night.json", "other.json", "--page", "night.html"]
            subprocess.run(command, cwd=tmp_path, capture_output=True, check=False)
            document = xml.dom.minidom.parse(str(tmp_path / "night.html"))
            heads = [text_of(each) for each in document.getElementsByTagName("thead")[0].getElementsByTagName("th")]
            rows = document.getElementsByTagName("tbody")[0].getElementsByTagName("tr")
            assert [text_of(row.getElementsByTagName("th")[0]) for row in rows] == ["test_it.py::test_client", "other"]
            return dict(zip(heads[1:], rows[0].getElementsByTagName("td")))

        yield start


def text_of(element):
    return "".join(node.data for node in element.childNodes if node.nodeType == node.TEXT_NODE)


def states_of(cells):
    return [text_of(cells[state]) for state in ("New", "Known", "Mended", "Flaky")]


def classes_of(cell):
    return [each.getAttribute("class") for each in cell.getElementsByTagName("i")]


def test_a_night_tells_what_is_new_known_mended_and_flaky(night, tmp_path):
    cut = "return clients.patient_cut_body(addresses)"
    first = night(cut)
    assert (states_of(first), "wrong" in classes_of(first["closed"])) == (["1", "0", "0", "0"], True)
    assert states_of(night(cut)) == ["0", "1", "0", "0"]
    mended = night("return clients.correct(addresses)")
    assert (states_of(mended), "wrong" in classes_of(mended["closed"])) == (["0", "0", "1", "0"], False)
    # It fails in one run alone, as one that a busy machine has kept waiting may: behind the at most 19 without a fault and of what is remembered.
    once = f"open({str(tmp_path / 'once')!r}, 'a').write('.'); assert len(open({str(tmp_path / 'once')!r}).read()) != 22; return clients.correct(addresses)"
    assert states_of(night(once)) == ["0", "0", "1", "1"]


def test_a_session_without_searches_has_no_section(session, tmp_path):
    assert " toxi " not in session("-k", "without")
    assert not (tmp_path / "page.html").exists()
