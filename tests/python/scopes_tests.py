"""The pytest plugin's wider fixtures, its settings, and what it keeps of red tests."""
import os
import re
import shlex
import subprocess
import sys

import pytest

# How these tests start pytest, and how a red test shows it.
STARTED = f"{os.path.basename(sys.executable)} -m pytest"
# A client that connects and goes, so that each link has a line.
CLIENT = """
import socket
import pytest
from toxi import LimitData, Rule, ToxiFactory
NOWHERE = {"shop": "127.0.0.1:1"}
def visit(served):
    number = len(served.links()) + 1
    socket.create_connection(served.address()).close()
    served.wait_for_link("shop", number, 20)
"""
SHARED = """
@pytest.fixture(scope="SCOPE")
def shop(toxi_SCOPE):
    return toxi_SCOPE(NOWHERE, [Rule("shop", [LimitData(bytes=0, toxicity=0.5)])])
def test_one(shop):
    visit(shop)
    visit(shop)
def test_two(shop):
    visit(shop)
    assert False
def test_three(shop):
    assert len(shop.links()) == 3
"""
HYPOTHESIS = """
from hypothesis import given, settings, strategies
@settings(deadline=None, max_examples=8, database=None)
@given(size=strategies.integers(0, 100))
def test_sizes(toxi_session, size):
    with toxi_session(NOWHERE, [Rule("shop", [LimitData(bytes=size)])]) as served:
        visit(served)
        assert size < 20
"""


def section_of(printed, name):
    """The lines of a section of a red test."""
    found = re.search(rf"^-+ {name} -+\n(.*?)^(?:[-=_]+ |\Z)", printed, re.M | re.S)
    assert found is not None, printed
    return found[1].splitlines()


@pytest.mark.parametrize("scope", ["module", "session"])
def test_a_red_test_shows_its_own_links(run_pytest, scope):
    printed = run_pytest({"sub/test_shared.py": CLIENT + SHARED.replace("SCOPE", scope)}, "--toxi-seed", "7")
    assert "1 failed, 2 passed" in printed
    lines = section_of(printed, f"toxi_{scope}")
    assert lines[:2] == [f"{STARTED} sub/test_shared.py --toxi-seed 7", "seed 7"]
    assert [line.split()[2] for line in lines if line.startswith("link ")] == ["3"]
    page = next(line for line in lines if line.startswith("page "))[len("page ") :]
    with open(page, encoding="utf-8") as text:
        shown = text.read()
    assert "shop 3" in shown and "shop 1" not in shown


def test_the_command_of_a_session_has_the_modules_before(run_pytest):
    conftest = CLIENT + SHARED.replace("SCOPE", "session").partition("def test_one")[0]
    tests = "import conftest\ndef test_{0}(shop):\n    conftest.visit(shop)\n    assert {1}\n"
    files = {"conftest.py": conftest, "test_a.py": tests.format("a", 1), "test_b.py": tests.format("b", 0)}
    printed = run_pytest({**files, "test_0.py": "def test_0():\n    pass\n"})
    lines = section_of(printed, "toxi_session")
    shown = shlex.split(lines[0])
    assert shown[:6] == [*STARTED.split(), "test_a.py", "test_b.py", "--toxi-seed"]
    again = section_of(run_pytest({}, *shown[3:]), "toxi_session")
    assert [line for line in lines if line.startswith("link ")] == [line for line in again if line.startswith("link ")]


def test_proxies_that_ended_before_are_not_shown(run_pytest):
    test = """
@pytest.mark.parametrize("number", [1, 2])
def test_each(toxi_session, number):
    with toxi_session(NOWHERE) as served:
        visit(served)
    assert number == 1
"""
    lines = section_of(run_pytest({"test_each.py": CLIENT + test}), "toxi_session")
    assert len([line for line in lines if line.startswith("link ")]) == 1


def test_with_ends_what_a_factory_started(run_pytest):
    test = """
def test_with(toxi_session):
    with toxi_session(NOWHERE) as served:
        visit(served)
    assert served.stopped and [total.links for total in served.totals()] == [1]
    with pytest.raises(OSError):
        socket.create_connection(served.address())
    with pytest.raises(Exception, match="it was stopped"), served:
        pass
    other = toxi_session(NOWHERE)
    with other as same:
        assert same is other
"""
    assert "1 passed" in run_pytest({"test_with.py": CLIENT + test})


def test_hypothesis(run_pytest):
    pytest.importorskip("hypothesis")
    printed = run_pytest({"test_sizes.py": CLIENT + HYPOTHESIS})
    assert "size=20" in printed
    lines = section_of(printed, "toxi_session")
    assert len([line for line in lines if line.startswith("link ")]) == 5
    assert re.fullmatch(r"\d+ earlier ones of toxi_session aren't shown", lines[1])


def test_artifacts(run_pytest, tmp_path):
    test = SHARED.replace("SCOPE", "module") + """
@pytest.mark.parametrize("name", ["a/b c"])
def test_own(toxi, name):
    visit(toxi(NOWHERE))
    assert False
"""
    files = {"sub/test_shared.py": CLIENT + test}
    for _ in range(2):
        printed = run_pytest(files, "--toxi-artifacts", "kept", "--toxi-seed", "7")
    kept = tmp_path / "kept" / "sub" / "test_shared.py"
    tests = sorted(os.listdir(kept))
    assert [re.sub("-[0-9a-f]{8}$", "", name) for name in tests] == ["test_own[a_b_c]", "test_two"]
    assert f"kept {kept / 'test_two' / '2'}" in printed.splitlines()
    for name, fixture, links in ((tests[0], "toxi", ["1"]), ("test_two", "toxi_module", ["3"])):
        assert sorted(os.listdir(kept / name)) == ["1", "2"]
        assert sorted(os.listdir(kept / name / "2")) == [f"{fixture}-1", f"{fixture}.txt"]
        folder = kept / name / "2" / f"{fixture}-1"
        logs = [f"shop-{link}-{stream}.log" for link in links for stream in ("downstream", "upstream")]
        assert sorted(os.listdir(folder / "logs")) == logs
        assert sorted(os.listdir(folder)) == ["logs", "proxies.json", "report.html", "script.toml"]
        assert "seed 7" in (kept / name / "2" / f"{fixture}.txt").read_text().splitlines()


def test_attempts_of_a_rerun(run_pytest, tmp_path):
    """A rerun as its plugins do it: the protocol of the same item once more."""
    conftest = """
from _pytest.runner import runtestprotocol
def pytest_runtest_protocol(item, nextitem):
    for _ in range(2):
        item._initrequest()
        runtestprotocol(item, nextitem=nextitem, log=True)
    return True
"""
    test = "def test_own(toxi):\n    visit(toxi(NOWHERE))\n    assert False\n"
    run_pytest({"conftest.py": conftest, "test_again.py": CLIENT + test}, "--toxi-artifacts", "kept")
    kept = tmp_path / "kept" / "test_again.py" / "test_own"
    assert sorted(os.listdir(kept)) == ["1", "2"]
    assert all((kept / attempt / "toxi-1" / "script.toml").is_file() for attempt in "12")


def test_settings_of_the_ini(run_pytest, tmp_path):
    ini = "[pytest]\ntoxi_program = tools/toxi\ntoxi_seed = 11\ntoxi_workers = 2\n"
    test = "def test_own(toxi):\n    toxi(NOWHERE)\n    assert False\n"
    files = {"pytest.ini": ini, "sub/test_own.py": CLIENT + test}
    assert "tools/toxi can't be started" in run_pytest(files)
    (tmp_path / "tools").mkdir()
    (tmp_path / "tools" / "toxi").symlink_to(os.environ["TOXI"])
    lines = section_of(run_pytest(files, folder=tmp_path / "sub"), "toxi")
    assert lines[0] == f"{STARTED} test_own.py::test_own --toxi-seed 11"
    assert lines[2].startswith(f"{tmp_path}/tools/toxi serve ") and " --seed 11 --workers 2 " in lines[2]
    told = ("--toxi-seed", "12", f"--toxi-program={os.environ['TOXI']}", "--toxi-workers=1")
    # A path that stands alone may take pytest's root elsewhere.
    for given in (told, ("--toxi-seed", "12", "--toxi-program", os.environ["TOXI"], "--toxi-workers=1")):
        lines = section_of(run_pytest(files, *given), "toxi")
        assert lines[0] == shlex.join([*STARTED.split(), "sub/test_own.py::test_own", *told])
    assert lines[2].startswith(f"{os.environ['TOXI']} serve ") and " --seed 12 --workers 1 " in lines[2]
    printed = run_pytest({**files, "pytest.ini": "[pytest]\ntoxi_seed = x\n"})
    assert "toxi_seed of the ini is 'x', no whole number" in printed


def test_warnings_can_be_errors(run_pytest):
    test = "def test_own(toxi):\n    toxi(NOWHERE, [Rule('shop'), Rule('shop')])\n"
    files = {"test_own.py": CLIENT + test}
    assert "ToxiWarning: rule 2 never applies: rule 1 covers its connections, at rule 2" in run_pytest(files)
    printed = run_pytest({**files, "pytest.ini": "[pytest]\nfilterwarnings = error::toxi.ToxiWarning\n"})
    assert "1 failed" in printed


def test_the_factory_is_typed(tmp_path):
    pytest.importorskip("mypy")
    (tmp_path / "test_typed.py").write_text(
        """
from toxi import Latency, Rule, ToxiFactory
def test_good(toxi: ToxiFactory) -> None:
    seed: int = toxi.seed
    with toxi({"shop": "127.0.0.1:1"}, [Rule("shop", [Latency(latency=1, toxicity=0.5)], last=seed)], links=3, workers=2) as served:
        served.url()
def test_bad(toxi: ToxiFactory) -> None:
    toxi({"shop": "127.0.0.1:1"}, linkss=3)
    Rule("shop", 3)
    Latency(100)
"""
    )
    command = [sys.executable, "-m", "mypy", "--strict", "--cache-dir", "/dev/null", "test_typed.py"]
    environment = {**os.environ, "MYPYPATH": os.environ["PYTHONPATH"]}
    printed = subprocess.run(command, cwd=tmp_path, env=environment, capture_output=True, text=True, check=False).stdout
    assert [line.split(":")[1] for line in printed.splitlines() if line.startswith("test_typed.py:") and " error: " in line] == ["8", "9", "10"], printed
    assert 'Unexpected keyword argument "linkss"' in printed


def test_an_unknown_option_is_a_type_error(toxi):
    with pytest.raises(TypeError, match="linkss"):
        toxi({"shop": "127.0.0.1:1"}, linkss=3)
