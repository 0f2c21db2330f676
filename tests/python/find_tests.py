"""`find_fault` on clients with a planted bug: each is found, and shrunk to what a person would write. Needs Hypothesis."""
import asyncio
import glob
import http.client
import itertools
import os
import re
import subprocess
import sys
import tempfile
import threading
import time
import unittest
from pathlib import Path

import clients
from services import Lines, serving
from toxi import Found, LimitData, Link, ResetPeer, Rule, Timeout, ToxiError, find_fault, rerun, script_text
from toxi.client_source import FunctionSource

WITHIN = 1.0
# The unproved program takes its time.
BUDGET = 600.0
FIRST = [Rule("shop", [LimitData(bytes=0)], last=1)]


class OwnConnectionError(Exception):
    """Has the name of Python's own."""


OwnConnectionError.__name__ = "ConnectionError"


def children():
    """The processes that this one has started and that haven't ended."""
    found = []
    for stat in glob.glob("/proc/[0-9]*/stat"):
        try:
            fields = Path(stat).read_text().rpartition(")")[2].split()
        except (FileNotFoundError, ProcessLookupError):
            continue
        if fields[1] == str(os.getpid()) and fields[0] not in "ZX":
            found.append(stat)
    return found


async def hangs_in_a_loop(addresses):
    """As `clients.waits`, under asyncio."""
    reader, writer = await asyncio.open_connection(*addresses["shop"])
    writer.write(clients.REQUEST)
    try:
        return await reader.readexactly(len(b"5\nhello"))
    except asyncio.IncompleteReadError as error:
        raise ConnectionError("cut") from error
    finally:
        writer.close()


class Searching(unittest.TestCase):
    """A service, a folder for what is found, and no process left."""

    def setUp(self):
        self.server = self.enterContext(serving(Lines))
        self.folder = self.enterContext(tempfile.TemporaryDirectory())
        self.shop = {"shop": self.server.address}

    def tearDown(self):
        self.assertEqual(children(), [])

    def found(self, client, upstreams=None, **options):
        target = Path(tempfile.mkdtemp(dir=self.folder))
        return find_fault(upstreams or self.shop, client, **{"within": WITHIN, "budget": BUDGET, "folder": target, **options})


class FindTests(Searching):
    def require(self, found, kind, rules):
        self.assertIsInstance(found, Found)
        self.assertEqual((found.kind, found.script), (kind, script_text(rules)))
        self.assertEqual((found.failed, found.repeated), (10, 10))

    def test_one_recv(self):
        found = self.found(clients.one_recv)
        self.require(found, "wrong answer", FIRST)
        self.assertEqual([met.link for met in found.connections], [Link("shop", 1, 6, "closed", 0, "closed")])

    def test_cut_body(self):
        self.require(self.found(clients.cut_body), "wrong answer", [Rule("shop", [LimitData(bytes=2)], last=1)])

    def test_sends_twice(self):
        def clear():
            self.server.count = 0

        found = self.found(clients.sends_twice, before=clear, check=lambda _: self.server.count == 1)
        self.require(found, "wrong answer", [Rule("shop", [ResetPeer(after=1)], last=1)])

    def test_no_time_limit(self):
        for client in (clients.waits, hangs_in_a_loop):
            with self.subTest(client.__name__):
                self.require(self.found(client), "hang", [Rule("shop", [Timeout()], last=1)])

    def test_keeps_a_dead_connection(self):
        found = self.found(clients.keeps_dead)
        self.require(found, "exception NoRecovery", FIRST)
        self.assertEqual(set(re.findall('File "(.*?)"', found.detail)), {clients.__file__})

    def test_two_faults_at_once(self):
        with serving(Lines) as other:
            upstreams = {"first": self.server.address, "second": other.address}
            found = self.found(clients.careless_fallback, upstreams)
        rules = [Rule("first", [LimitData(bytes=0)], last=1), Rule("second", [LimitData(bytes=2)], last=1)]
        # Rules of different proxies make as small a fault in either order.
        self.require(found, "wrong answer", sorted(rules, key=lambda rule: found.script.index(f'"{rule.proxy}"')))
        self.assertEqual([met.link.proxy for met in found.connections], ["first", "second"])

    def test_a_correct_client_has_none(self):
        seen = []
        self.assertIsNone(self.found(clients.whole, runs=300, watch=seen.append))
        self.assertEqual([progress.runs for progress in seen], list(range(1, len(seen) + 1)))
        self.assertEqual([progress.phase for progress in seen].count("drawn"), 300)
        self.assertEqual(list(dict.fromkeys(progress.phase for progress in seen)), ["boundaries", "late answers", "outages", "drawn"])


class HandedOverTests(Searching):
    """The folder, and searches that end early."""

    def test_the_folder_runs_it_again(self):
        found = self.found(clients.cut_body)
        files = {"again.sh", "logs", "proxies.json", "report.html", "script.toml", "seed", "test_found.py"}
        self.assertEqual(set(os.listdir(found.folder)), files)
        self.assertEqual((found.folder / "script.toml").read_text(), found.script)
        self.assertEqual(sorted(os.listdir(found.folder / "logs")), ["shop-1-downstream.log", "shop-1-upstream.log"])
        again = subprocess.run(found.command, shell=True, capture_output=True, text=True, check=False)
        self.assertEqual((again.returncode, again.stderr), (1, f"wrong answer under {found.folder / 'script.toml'}\nanswer b''\nright  b'hello'\n"))
        test = found.folder / "test_found.py"
        test.write_text(test.read_text().replace("import cut_body as client", "import whole as client"))
        mended = subprocess.run(found.command, shell=True, capture_output=True, text=True, check=False)
        self.assertEqual((mended.returncode, mended.stdout, mended.stderr), (0, "right in 1 of 1 runs under script.toml\n", ""))
        with self.assertRaisesRegex(AssertionError, "^wrong answer under "):
            rerun(found.folder, clients.cut_body, within=WITHIN)
        with self.assertRaisesRegex(ToxiError, "isn't empty"):
            find_fault(self.shop, clients.cut_body, folder=found.folder)

    def test_what_was_allowed_is_imported_by_its_names(self):
        allowed = (http.client.HTTPException, ConnectionError, OwnConnectionError)
        function = FunctionSource(clients.whole, clients.parts, allowed, None)
        self.assertEqual(function.folders, [os.path.dirname(clients.__file__)])
        source = function.test_text("about", 2.0, 3)
        call = "rerun(Path(__file__).parent, client, check=check, allowed=(HTTPException, ConnectionError, ConnectionError3)"
        for line in (
            "from clients import whole as client",
            "from clients import parts as check",
            "from http.client import HTTPException",
            "from find_tests import OwnConnectionError as ConnectionError3",
            f"    {call}, within=2.0, times=3, upstreams=toxi_upstreams)",
        ):
            self.assertIn(line, source.splitlines())

    def test_a_client_that_never_returns_ends_the_search(self):
        released = threading.Event()
        self.addCleanup(released.set)

        def stuck(addresses):
            try:
                return clients.whole(addresses)
            except OSError:
                released.wait()

        found = self.found(stuck)
        self.assertEqual((found.kind, found.failed, found.repeated), ("hang", 1, 1))
        self.assertTrue(str(found).startswith("hang in one run, "))
        self.assertIn("didn't return when its links were broken either", found.detail)
        self.assertIn("put the client in here", (found.folder / "test_found.py").read_text())

    def test_what_comes_now_and_then_has_its_frequency(self):
        turns = itertools.count()

        def every_other(addresses):
            try:
                return clients.whole(addresses)
            except OSError:
                if next(turns) % 2:
                    raise
                return b"wrong"

        found = self.found(every_other, runs=40)
        self.assertEqual((found.kind, found.script, found.failed, found.repeated), ("wrong answer", script_text(FIRST), 5, 10))
        self.assertIn("times=10, ", (found.folder / "test_found.py").read_text())

    def test_what_no_repetition_shows_is_not_found(self):
        for told, turns, fails in (
            ("one wrong answer", (10,), lambda addresses: b"wrong"),
            ("one hang", (10,), lambda addresses: time.sleep(1.5 * WITHIN)),
            ("three wrong answers in a row, and then none", (10, 11, 12), lambda addresses: b"wrong"),
            ("two hangs in a row, and then none", (10, 11), lambda addresses: time.sleep(1.5 * WITHIN)),
        ):
            with self.subTest(told):
                numbers = itertools.count()
                self.assertIsNone(self.found(lambda addresses: (fails if next(numbers) in turns else clients.whole)(addresses), runs=30))

    def test_the_budget_ends_a_search(self):
        found = find_fault(self.shop, clients.waits, within=WITHIN, budget=8.0, folder=Path(self.folder, "found"))
        self.assertEqual(found.kind, "hang")
        self.assertLess(found.seconds, 8.0 + 2 * WITHIN)

    def test_a_client_must_be_right_without_a_fault(self):
        answers = iter(range(100))
        with self.assertRaisesRegex(ToxiError, "so give `check`.*0 after .*, 1 after "):
            self.found(lambda addresses: next(answers))
        with self.assertRaisesRegex(ToxiError, "`check` refuses an answer without a fault.*5"):
            self.found(lambda addresses: 5, check=lambda answer: None)
        with self.assertRaisesRegex(ToxiError, "the client fails without a fault: KeyError: 'mail'"):
            self.found(lambda addresses: addresses["mail"])
        with self.assertRaisesRegex(ToxiError, "the client makes no connection to its proxies"):
            self.found(lambda addresses: 1)

    def test_a_search_without_runs_finds_nothing_by_mistake(self):
        for options in ({"budget": 0}, {"budget": float("nan")}, {"runs": 0}):
            with self.subTest(options=options), self.assertRaisesRegex(ValueError, "a search has at least one run and some seconds"):
                self.found(clients.whole, **options)

    def test_what_before_raises_is_raised(self):
        calls = iter(range(100))

        def before():
            if next(calls) > 4:
                raise ValueError("before")

        with self.assertRaisesRegex(ValueError, "^before$"):
            self.found(clients.whole, before=before)


if __name__ == "__main__":
    sys.exit(unittest.main())
