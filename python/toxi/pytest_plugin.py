"""A pytest plugin: fixtures that start proxies, and a red test tells how to see the same fault again.

    def test_slow_answer(toxi: ToxiFactory) -> None:
        served = toxi({"shop": "127.0.0.1:8080"}, [Rule("shop", [Latency(latency=100)])])
        connect(served.address("shop"))
"""
import random
import time
from pathlib import Path
from typing import Any, Dict, Generator, Iterator, List, Mapping, Optional

import pytest

from . import __version__
from .artifacts import attempt_folder
from .factory import Begun, ToxiFactory
from .fixture_factory import RememberingFactory
from .pytest_report import Fixture, Section
from .pytest_results import NAME, SessionResults, give_results
from .pytest_settings import MARK, add_settings, file_of, require_artifacts, settings_at, settings_of

# The command line's seeds are 64 bits. Drawn ones are short enough to be typed.
DRAWN_BITS = 32
# The line of a link comes milliseconds after its end, and the end of its log within 0.1 s. In seconds.
SETTLE = 0.2
# The name of what a session's fixture searches before its first test.
FIXTURE_OF_SESSION = "session"
FIXTURE = pytest.StashKey[Fixture]()
BEGUN = pytest.StashKey[Dict[ToxiFactory, Begun]]()
KEPT = pytest.StashKey[Path]()


def pytest_addoption(parser: pytest.Parser) -> None:
    """`--toxi-seed`, `--toxi-workers`, `--toxi-program`, `--toxi-artifacts`, `--toxi-page` and `--toxi-json`, and the keys of the ini."""
    add_settings(parser)


def pytest_configure(config: pytest.Config) -> None:
    """Takes the results of searches and sweeps, but not in a worker of pytest-xdist."""
    config.addinivalue_line("markers", f"{MARK}(seed=, workers=): the seed and the number of workers of the test's toxi fixtures")
    require_artifacts(config)
    if not hasattr(config, "workerinput"):
        config.pluginmanager.register(SessionResults(file_of(config, "json"), file_of(config, "page")), NAME)


def pytest_report_header(config: pytest.Config) -> str:
    """The version, the seed and the workers of the session. What is wrong with these a test tells that needs them."""
    try:
        settings = settings_of(config)
    except pytest.UsageError:
        return f"toxi: {__version__}"
    seed = "seeds are drawn" if settings.seed is None else f"seed {settings.seed}"
    return f"toxi: {__version__}, {seed}, {'no' if settings.workers is None else settings.workers} workers"


@pytest.fixture
def toxi(request: pytest.FixtureRequest, tmp_path: Path) -> Iterator[ToxiFactory]:
    """A factory: `toxi(proxies, rules)` starts a `Toxi` that ends with the test, with files in `tmp_path`. `toxi.seed` is the test's seed."""
    yield from _factory(request, tmp_path)


@pytest.fixture(scope="module")
def toxi_module(request: pytest.FixtureRequest, tmp_path_factory: pytest.TempPathFactory) -> Iterator[ToxiFactory]:
    """As `toxi`, for a module: what it starts ends with the module's last test, or with a `with` statement."""
    yield from _factory(request, tmp_path_factory.mktemp("toxi_module"))


@pytest.fixture(scope="session")
def toxi_session(request: pytest.FixtureRequest, tmp_path_factory: pytest.TempPathFactory) -> Iterator[ToxiFactory]:
    """As `toxi`, for the session: what it starts ends with the last test, or with a `with` statement."""
    yield from _factory(request, tmp_path_factory.mktemp("toxi_session"))


@pytest.fixture
def toxi_upstreams() -> Mapping[str, str]:
    """The upstreams of a `test_found.py`, by the names of its proxies: those of the `proxies.json` beside it, unless a suite's own fixture gives others."""
    return {}


def _factory(request: pytest.FixtureRequest, folder: Path) -> Iterator[ToxiFactory]:
    settings = settings_at(request.node, request.config)
    seed = random.SystemRandom().getrandbits(DRAWN_BITS) if settings.seed is None else settings.seed
    kind = ToxiFactory if settings.faults is None else RememberingFactory
    factory = kind(seed, folder, settings.program, settings.workers, request.config.rootpath)
    if isinstance(factory, RememberingFactory) and settings.faults is not None:
        factory.faults, factory.test_id = settings.faults, request.node.nodeid or FIXTURE_OF_SESSION
    name = request.fixturename
    assert name is not None
    request.node.stash[FIXTURE] = Fixture(name, factory, request.scope != "function")
    try:
        yield factory
    finally:
        factory.stop()


def _fixtures_of(item: pytest.Item) -> List[Fixture]:
    """The factories that a test uses and that were set up."""
    held = [node.stash[FIXTURE] for node in item.listchain() if FIXTURE in node.stash]
    return [fixture for fixture in held if fixture.name in getattr(item, "fixturenames", ())]


@pytest.hookimpl(tryfirst=True)
def pytest_runtest_setup(item: pytest.Item) -> None:
    """Notes how far the proxies of wider fixtures are, before anything of the test runs. What an earlier attempt left is forgotten."""
    if FIXTURE in item.stash:
        del item.stash[FIXTURE]
    if KEPT in item.stash:
        del item.stash[KEPT]
    item.stash[BEGUN] = {fixture.factory: fixture.factory.begun() for fixture in _fixtures_of(item)}


@pytest.hookimpl(tryfirst=True)
def pytest_runtest_call(item: pytest.Item) -> None:
    """Tells the factories which test runs, whose faults its searches remember."""
    for fixture in _fixtures_of(item):
        if isinstance(fixture.factory, RememberingFactory):
            fixture.factory.test_id = item.nodeid


@pytest.hookimpl(hookwrapper=True)
def pytest_runtest_makereport(item: pytest.Item) -> Generator[None, Any, None]:
    """Adds to a test's report what is needed to see the same again. pytest shows it of red tests, and of all with `-rP`."""
    outcome = yield
    report = outcome.get_result()
    fixtures = _fixtures_of(item)
    if report.when == "setup":
        for fixture in fixtures:
            fixture.modules[item.path] = None
            item.user_properties.append((f"{fixture.name}_seed", fixture.factory.seed))
    if not fixtures or not (report.failed or report.when == "call"):
        return
    if report.failed:
        _settle(item, fixtures)
    kept = _kept(item) if report.failed else None
    begun: Dict[ToxiFactory, Begun] = item.stash.get(BEGUN, {})
    for fixture in fixtures:
        if report.when != "teardown":
            give_results(report, fixture.factory.results[begun.get(fixture.factory, Begun()).results :])
        section = Section(item, fixture, begun.get(fixture.factory, Begun()))
        report.sections.append((fixture.name, section.text(report.failed, kept)))


def _settle(item: pytest.Item, fixtures: List[Fixture]) -> None:
    """Ends the links of the test's own proxies, so that they get their lines. A debugger may want them alive. Wider proxies go on."""
    for fixture in fixtures:
        if fixture.is_wide:
            time.sleep(SETTLE)
        elif not item.config.getoption("usepdb", False):
            fixture.factory.stop()


def _kept(item: pytest.Item) -> Optional[Path]:
    """Where the files of this attempt of a test are kept."""
    folder = settings_of(item.config).artifacts
    if folder is None:
        return None
    if KEPT not in item.stash:
        item.stash[KEPT] = attempt_folder(folder, item.nodeid)
    return item.stash[KEPT]
