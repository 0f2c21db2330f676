"""Faults that a search remembers: their files, and what the next search makes of them. Needs Hypothesis and Python 3.11."""
import json
import re
import socket
import subprocess
import sys
import tempfile
import unittest
from pathlib import Path

import clients
from find_tests import Searching
from toxi import Bandwidth, Latency, LimitData, ResetPeer, Rule, Search, Slicer, SlowClose, Timeout, Toxi, ToxiError, find_fault, rerun, thousandths
from toxi._search.cases import Case
from toxi._search.fault_file import MARK, FaultAbout, fault_text, read_fault

# Faults that end an answer are no matter of time, so a busy machine may take its own.
WITHIN = 30.0
EVERY_TOXIC = [
    Latency(latency=5, jitter=2, until=7, from_=3),
    Bandwidth(rate=9, stream="upstream", toxicity=thousandths(30)),
    SlowClose(delay=4, name="a \"b\" # c"),
    Timeout(timeout=3, after=2, toxicity=0.5),
    ResetPeer(after=1),
    Slicer(average_size=3, size_variation=1, delay=8),
    LimitData(bytes=12),
]


def refused_is_wrong(addresses):
    """Only a connect that is refused is what its caller doesn't know."""
    try:
        return clients.correct(addresses)
    except clients.Refused as error:
        if isinstance(error.__cause__, ConnectionRefusedError):
            raise KeyError("refused") from None
        raise


class MemoryTests(Searching):
    def setUp(self):
        super().setUp()
        self.faults = Path(self.folder, "faults")

    def search(self, client, upstreams=None, **options):
        return Search(upstreams or self.shop, client, within=WITHIN, remember=self.faults, name="reads a page", **options)

    def find(self, client, upstreams=None, faults=("closed",), **options):
        self.phases = []
        search = self.search(client, upstreams)
        given = {"max_found": 1, "runs": 5, "stream": None if "refused" in faults else "downstream", **options}
        return search.find(faults=faults, watch=lambda progress: self.phases.append(progress.phase), **given)

    def test_a_file_is_a_script_without_an_address_or_a_path(self):
        (found,) = self.find(clients.patient_cut_body).found
        self.assertEqual(found.remembered.parent.parent, self.faults)
        self.assertRegex(found.remembered.name, r"^wrong-answer-[0-9a-f]{8}\.toml$")
        line, _, script = found.remembered.read_text().partition("\n")
        self.assertEqual(json.loads(line[len(MARK) :]), {"seed": 1, "kind": "wrong answer", "upstreams": ["shop"], "refused": []})
        self.assertEqual(script, found.script)
        self.assertNotRegex(line, r"/|\d+\.\d+")
        with Toxi(self.shop, found.remembered.read_text()) as toxi:
            self.assertEqual(clients.patient_cut_body({"shop": toxi.address("shop")}), b"")
        self.assertIn(f"remembered in {found.remembered}\n", str(found))

    def test_it_is_run_first_and_told_once_mended(self):
        (found,) = self.find(clients.patient_cut_body).found
        again = self.find(clients.patient_cut_body)
        self.assertEqual((self.phases[0], again.found[0].script, again.found[0].remembered), ("remembered", found.script, found.remembered))
        self.assertLess(again.runs, 2 * found.runs)
        self.assertEqual([(each.file, each.kind, each.state) for each in again.remembered], [(found.remembered, "wrong answer", "fails")])
        mended = self.find(clients.correct)
        mended.require_none()
        self.assertEqual([(each.file, each.state) for each in mended.remembered], [(found.remembered, "mended")])
        self.assertIn(f"mended: {found.remembered} (wrong answer)\n", str(mended))
        self.assertEqual(json.loads(mended.json_text())["remembered"], [{"file": str(found.remembered), "kind": "wrong answer", "state": "mended"}])
        self.assertIn("mended: ", mended.page_text())
        self.assertTrue(found.remembered.exists())

    def test_what_no_search_finds_is_found_by_its_file(self):
        self.find(clients.patient_cut_body)
        result = self.find(clients.patient_cut_body, faults=("reset",))
        self.assertEqual([found.kind for found in result.found], ["wrong answer"])

    def test_upstreams_of_other_names_are_told_and_not_run(self):
        (found,) = self.find(clients.patient_cut_body).found
        other = self.find(lambda addresses: clients.patient_cut_body({"shop": addresses["mail"]}), {"mail": self.server.address}, max_found=2)
        self.assertEqual([(each.file, each.state) for each in other.remembered], [(found.remembered, "other upstreams")])
        self.assertNotIn("remembered", self.phases)
        self.assertEqual(len(list(self.faults.glob("*/*.toml"))), 2)

    def test_a_refused_connect(self):
        (found,) = self.find(refused_is_wrong, faults=("refused",)).found
        self.assertEqual(read_fault(found.remembered), (Case(refused=frozenset({"shop"})), FaultAbout(1, "exception KeyError", ("shop",), ("shop",))))
        self.assertEqual([each.refused for each in self.find(refused_is_wrong, faults=("refused",)).found], [("shop",)])

    def test_the_first_failure_alone(self):
        options = {"within": WITHIN, "remember": self.faults, "name": "first", "stream": "downstream", "kinds": ["limit_data"]}
        found = find_fault(self.shop, clients.patient_cut_body, **options)
        self.assertEqual(found.remembered.parent, self.faults / "first")

    def test_what_can_not_be_remembered_is_told_at_the_start(self):
        for options in ({"remember": self.faults}, {"name": "a"}):
            with self.assertRaisesRegex(ValueError, "remember=DIR and name=NAME"):
                Search(self.shop, clients.correct, **options).find()
        (found,) = self.find(clients.patient_cut_body).found
        for text in ("version = 2\n", f"{MARK}{{}}\n", f'{MARK}{{"seed": 1, "kind": "hang", "upstreams": ["shop"]}}\n[[rule]\n'):
            found.remembered.write_text(text)
            with self.assertRaisesRegex(ToxiError, re.escape(str(found.remembered))):
                self.find(clients.correct)
        self.faults = Path("/proc/nowhere")
        with self.assertRaisesRegex(ToxiError, "can't be written"):
            self.find(clients.correct)


class FaultFileTests(unittest.TestCase):
    def test_every_toxic_is_read_as_it_was_written(self):
        case = Case((Rule("shop", EVERY_TOXIC, first=2, last=3), Rule("mail", EVERY_TOXIC[:1])))
        about = FaultAbout(7, "exception KeyError", ("shop", "mail"), ("mail",))
        path = Path(self.enterContext(tempfile.TemporaryDirectory()), "fault.toml")
        path.write_text(fault_text(case, about), encoding="utf-8")
        read, read_about = read_fault(path)
        self.assertEqual((read.script, read.refused, read_about), (case.script, frozenset({"mail"}), about))


class HandedOverTests(Searching):
    """The test that is handed over, at other upstreams."""

    def setUp(self):
        super().setUp()
        search = Search(self.shop, clients.patient_cut_body, within=WITHIN)
        (self.given,) = search.find(max_found=1, faults=["closed"], stream="downstream", folder=Path(self.folder, "given")).found
        with socket.create_server(("127.0.0.1", 0)) as free:
            self.absent = f"127.0.0.1:{free.getsockname()[1]}"

    def again(self, *words):
        return subprocess.run(["sh", self.given.folder / "again.sh", *words], capture_output=True, text=True, check=False)

    def test_it_takes_upstreams(self):
        proxies = self.given.folder / "proxies.json"
        proxies.write_text(proxies.read_text().replace(self.server.address, self.absent))
        ran = self.again()
        self.assertEqual((ran.returncode, ran.stdout), (2, ""))
        self.assertRegex(ran.stderr, f"^nobody listens at {self.absent}, the upstream 'shop': .*refused\n$")
        ran = self.again(f"shop={self.server.address}")
        self.assertEqual((ran.returncode, ran.stderr.splitlines()[0]), (1, f"wrong answer under {self.given.folder / 'script.toml'}"))
        ran = self.again("mail=127.0.0.1:1")
        self.assertEqual(ran.returncode, 2)
        self.assertIn("again.sh: error: no upstream 'mail'; there are shop\n", ran.stderr)
        with self.assertRaisesRegex(AssertionError, "^wrong answer under "):
            rerun(self.given.folder, clients.patient_cut_body, within=WITHIN, upstreams=self.shop)
        with self.assertRaisesRegex(AssertionError, "^wrong answer under "):
            Search(self.shop, clients.patient_cut_body, within=WITHIN).rerun(self.given.folder)

    def test_the_test_has_no_absolute_path_and_takes_the_fixture(self):
        text = (self.given.folder / "test_found.py").read_text()
        self.assertNotRegex(text, r"""["' ]/""")
        self.assertIn("def test_found(toxi_upstreams: Mapping[str, str]) -> None:\n", text)
        self.assertIn("from clients import patient_cut_body as client\n", text)
        self.assertNotIn("sys.path", text)


class CommandTests(Searching):
    def ran(self, *words):
        command = [sys.executable, "-m", "toxi.find_command", "--upstream", f"shop={self.server.address}", "--within", "30", "--fault", "closed", "--stream"]
        given = [*command, "downstream", "--max-found", "1", "--runs", "5", *words]
        return subprocess.run(given, cwd=self.folder, capture_output=True, text=True, check=False)

    def test_a_command_remembers(self):
        """Its status 7 is that of an answer that is cut, and 1 that of one whose body is."""
        reads = "exec 3<>/dev/tcp/${TOXI_SHOP%:*}/${TOXI_SHOP#*:} || exit 7; echo hello >&3; read -r size <&3 || exit 7; read -r -N $size body <&3"
        words = ("--allow-status", "7", "--remember", "faults", "--name", "cut", "--", "bash", "-c")
        ran = self.ran(*words, reads)
        self.assertEqual((ran.returncode, ran.stderr), (1, ""))
        file = re.search(r"^remembered in (faults/cut/status-1-[0-9a-f]{8}\.toml)$", ran.stdout, re.M)[1]
        self.assertTrue(Path(self.folder, file).exists())
        self.assertEqual(self.ran(*words, reads).stdout.splitlines()[0], f"fails: {file} (status 1)")
        mended = self.ran(*words, f"{reads} || exit 7")
        self.assertEqual((mended.returncode, mended.stderr), (0, ""))
        self.assertRegex(mended.stdout, rf"^mended: {file} \(status 1\)\nnothing found by \d+ runs in \d+\.\d s\n$")
        ran = self.ran("--remember", "faults", "--", "true")
        self.assertEqual((ran.returncode, ran.stderr), (2, "toxi-find: what is found is remembered by a folder and a name: remember=DIR and name=NAME\n"))


if __name__ == "__main__":
    unittest.main()
