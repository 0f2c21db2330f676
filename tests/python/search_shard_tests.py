"""Shards of a search and of a sweep try together what one run tries, and their results are joined. Needs Hypothesis and bash."""
import contextlib
import io
import json
import os
import random
import subprocess
import sys
import tempfile
import unittest
import xml.dom.minidom
import xml.etree.ElementTree
from dataclasses import replace
from pathlib import Path
from unittest import mock

from find_tests import Searching
from search_order_tests import BUDGET, WITHIN, PretendedBatch, came_of, drawn
from toxi import Found, Latency, LimitData, ResetPeer, Rule, Timeout, ToxiError, find_command, merge_command, sweep_command
from toxi._search import drawing
from toxi._search.about import SEARCH, SWEEP, About
from toxi._search.cases import Case
from toxi._search.conversation import Conversation, measuring_cases
from toxi._search.conversation_file import KeptConversation, read_conversation
from toxi._search.merging import merged_files
from toxi._search.recording import recorded
from toxi._search.result import SearchResult, Tried
from toxi._search.searching import REMEMBERED_RUNS, SearchLimits
from toxi._search.searching import Searching as SearchUnderWay
from toxi._search.shards import Shard
from toxi.batches import ClientSetup
from toxi.campaign_page import states_of
from toxi.client_results import is_failing
from toxi.fault_lines import lines_of
from toxi.outcomes import Equals, Judge, Kind, Outcome
from toxi.sweeping import SWEPT, Sweeping, chooser

SETUP = ClientSetup({"shop": "127.0.0.1:1"}, None, WITHIN, None, 1, {})
JUDGE = Judge(Equals(b"right"))
NUMBERS = (1, 2, 3, 5, 8)
# A hang at a place keeps others from being tried there, so it is a matter of the shard.
WITHOUT_HANGS = ("closed", "reset", "slow", "sliced", "late", "refused")
# It reads the answer in time, or has the status 7.
READS = """exec 3<>/dev/tcp/${TOXI_SHOP%:*}/${TOXI_SHOP#*:} || exit 7; echo hello >&3
read -r -t 5 size <&3 || exit 7; read -r -t 5 -N "$size" body <&3; """
RIGHT = f'{READS} test "$body" = hello || exit 7'
CUT = f'{READS} test -n "$body" || exit 7; test "$body" = hello'


class Noting(SearchUnderWay):
    """A search that notes what its phases try, without what shrinks and repeats."""

    tried = ()

    def _ended(self, run, verdict):
        self.tried = (*self.tried, run.case.key)
        return super()._ended(run, verdict)


def reconnects(case):
    """As `came_of`, for a client that is always right. It makes a second connection where the first one fails, and a third where that does."""
    _, links, streams = came_of(case)
    failing = {rule.first for rule in case.rules for toxic in rule.toxics if isinstance(toxic, (LimitData, ResetPeer, Timeout))}
    made = 1 if 1 not in failing else 2 if 2 not in failing else 3
    links = [replace(link, number=number) for number in range(1, made + 1) for link in links[:1]]
    return Outcome(answer=b"right", seconds=0.5 if failing else 0.01), links, [stream for stream in streams if stream.number == 1]


class Pretended(unittest.TestCase):
    """Runs that take no time, whose outcomes the script alone decides."""

    def setUp(self):
        self.enterContext(mock.patch.multiple(PretendedBatch, workers=1, lost=0))
        self.enterContext(mock.patch("toxi._search.running.Batch", PretendedBatch))
        self.enterContext(mock.patch("toxi._search.drawing.drawn_scripts", lambda seed: iter(drawn(seed))))
        self.folder = Path(self.enterContext(tempfile.TemporaryDirectory()))
        self.given = recorded(SETUP, lambda outcomes: JUDGE)

    def about(self, kind, shard):
        return About(kind, "reads", 1, WITHIN, ("shop",), conversation=self.given.digest, shard=shard)


class PretendedTests(Pretended):
    def test_a_conversation_is_read_as_it_was_written(self):
        path = self.folder / "conversation.json"
        path.write_text(self.given.text)
        read = read_conversation(path)
        self.assertEqual((read.text, read.digest), (self.given.text, self.given.digest))
        self.assertEqual([stream.boundaries for stream in read.conversation.streams], [stream.boundaries for stream in self.given.conversation.streams])
        self.assertEqual(read.conversation.limits, self.given.conversation.limits)
        self.assertTrue(read.conversation.limits)
        self.assertNotIn("127.0.0.1", self.given.text)

    def tried(self, shard, given, remembered=(), faults=drawing.DrawnFaults(words=WITHOUT_HANGS)):
        """What the phases try, each once. A remembered case that doesn't fail is run three times."""
        options = {"given": given, "shard": shard, "remembered": remembered}
        search = Noting(SETUP, lambda outcomes: JUDGE, faults, SearchLimits(60, BUDGET, 50), 1, Path("/"), lambda found: None, **options)
        self.assertEqual(search.run(), "done")
        again = len(search.remembered_verdicts) * (REMEMBERED_RUNS - 1)
        self.assertEqual(len(set(search.tried)), len(search.tried) - again)
        return set(search.tried)

    def require_parts(self, given, whole, **options):
        """All shards together try what one run tries, each its own part."""
        for of in NUMBERS:
            parts = [self.tried(Shard(number, of), given, **options) for number in range(1, of + 1)]
            self.assertEqual(sum(map(len, parts)), len(whole), of)
            self.assertEqual(set().union(*parts), whole, of)

    def test_shards_of_a_search_try_what_one_run_tries(self):
        whole = self.tried(Shard(), self.given)
        self.assertGreater(len(whole), 100)
        # One that records the same conversation tries the same.
        self.assertEqual(self.tried(Shard(), None), whole)
        self.require_parts(self.given, whole)

    def test_remembered_faults_are_those_of_one_shard(self):
        """None fails, and the last one is among the boundaries."""
        remembered = [Case((Rule("shop", [toxic], first=1, last=1),)) for toxic in (Latency(latency=3), Latency(latency=5), LimitData(bytes=110))]
        whole = self.tried(Shard(), self.given, remembered)
        self.assertEqual(len(whole), len(self.tried(Shard(), self.given)) + 2)
        self.require_parts(self.given, whole, remembered=remembered)

    def test_silence_is_tried_where_it_was_measured(self):
        """As by a run that measures by itself: those places are spread over all boundaries, and the phase of the boundaries has the first and the last alone."""
        streams = [replace(stream, also=frozenset(range(0, stream.bytes, 3))) for stream in self.given.conversation.streams]
        given = KeptConversation(("shop",), Conversation(streams, self.given.conversation.limits))
        downstream = drawing.DrawnFaults(stream="downstream", words=("silent",))
        whole = self.tried(Shard(), given, faults=downstream)
        self.assertLessEqual({case.key for case in measuring_cases(streams)}, whole)
        self.require_parts(given, whole, faults=downstream)

    def test_connections_that_only_a_fault_calls_forth(self):
        """Silence calls them forth when the conversation is recorded. What a shard's own runs call forth the others don't know."""
        with mock.patch("search_order_tests.came_of", reconnects):
            given = recorded(SETUP, lambda outcomes: JUDGE)
            self.assertEqual([stream.number for stream in given.conversation.streams], [1, 1])
            self.assertEqual(list(given.called), [("shop", 2)])
            whole = self.tried(Shard(), given)
            self.assertTrue(any("first = 2\nlast = 2" in key for key in whole))
            self.require_parts(given, whole)

    def test_a_conversation_of_another_client_is_refused(self):
        other = KeptConversation(("shop",), Conversation([replace(stream, proxy="mail") for stream in self.given.conversation.streams]))
        with self.assertRaisesRegex(ToxiError, "^the client connects to shop, and in the conversation that it was given to mail$"):
            self.tried(Shard(), other)

    def sweep(self, shard, most):
        choose = chooser((*SWEPT, "sliced"), most, False, WITHIN, 1)
        sweeping = Sweeping(SETUP, choose, lambda outcomes: JUDGE, most=most, about=self.about(SWEEP, shard), given=self.given)
        sweeping.run()
        return sweeping.sweep

    def test_shards_of_a_sweep_run_whole_lines(self):
        whole = self.sweep(Shard(), 5000)
        for of in NUMBERS:
            parts = [self.sweep(Shard(number, of), 5000) for number in range(1, of + 1)]
            lines = [{run.point.line for run in part.swept} for part in parts]
            self.assertEqual(sum(map(len, lines)), len(set().union(*lines)), of)
            self.assertLessEqual(max(len(part.swept) for part in parts), len(whole.swept) / of + 250)
            paths = [self.folder / f"{number}.json" for number in range(of)]
            random.Random(of).shuffle(paths)
            for path, part in zip(paths, parts):
                path.write_text(part.json_text())
            (merged,) = merged_files(paths)
            self.assertEqual((str(merged.rows), merged.chosen, merged.possible), (str(whole.rows), whole.chosen, whole.possible), of)
            self.assertEqual({(run.point, run.outcome) for run in merged.swept}, {(run.point, run.outcome) for run in whole.swept})
            self.assertEqual([row.first.detail for row in merged.rows], [row.first.detail for row in whole.rows])

    def test_what_came_once_in_a_sweep_is_flaky_and_no_failure(self):
        whole = self.sweep(Shard(), 5000)
        failing = [run for run in whole.swept if run.verdict.is_fault]
        self.assertTrue(failing and all(line.kind is not None for line in lines_of(whole)))
        once = replace(whole, swept=[replace(run, other_runs=3) if run.verdict.is_fault else run for run in whole.swept])
        self.assertFalse(is_failing(once) or any(line.failures for line in lines_of(once)))
        self.assertLessEqual({line.kind for line in lines_of(once)}, {Kind.RIGHT, Kind.ALLOWED, None})
        self.assertEqual(states_of(once), {"Flaky": len(failing)})

    def test_shards_of_a_bounded_sweep_make_no_more_runs_than_one(self):
        whole = self.sweep(Shard(), 150)
        parts = [self.sweep(Shard(number, 3), 150) for number in (1, 2, 3)]
        self.assertEqual(len(whole.swept), 150)
        self.assertEqual(sum(len(part.swept) for part in parts), 150)


def result_of(client="reads", shard="1/1", **options):
    """A search that has found nothing, as JSON."""
    about = {**About(SEARCH, client, 1, WITHIN, ("shop",), {"runs": 200}, "c0de").members(), "shard": shard, **options}
    return {**SearchResult((), (), (Tried("closed", "upstream", "1", 3, 3),), "done", ("boundaries",), (), 5, 1.0).members(), "about": about}


class MergingTests(unittest.TestCase):
    """`toxi-merge` of files that fit together, and of others."""

    def setUp(self):
        self.folder = Path(self.enterContext(tempfile.TemporaryDirectory()))
        self.enterContext(contextlib.chdir(self.folder))

    def merged(self, *results):
        for number, result in enumerate(results, 1):
            Path(f"{number}.json").write_text(result if isinstance(result, str) else json.dumps(result))
        printed, said = io.StringIO(), io.StringIO()
        with contextlib.redirect_stdout(printed), contextlib.redirect_stderr(said):
            status = merge_command.main([*(f"{number}.json" for number in range(1, len(results) + 1)), "--json", "merged.json", "--page", "merged.html"])
        return status, printed.getvalue(), said.getvalue()

    def test_shards_in_any_order_are_one_result(self):
        status, printed, said = self.merged(result_of(shard="2/2"), result_of(shard="1/2"))
        self.assertEqual((status, said), (0, ""))
        self.assertEqual(printed, "nothing found by 10 runs in 2.0 s, ended by done, phases done: boundaries\n")
        members = json.loads(Path("merged.json").read_text())
        self.assertEqual((members["about"]["shard"], members["tried"][0]["runs"]), ("1/1", 6))
        # What was merged can be merged with others.
        both = self.merged(members, result_of("writes"))
        self.assertEqual((both[0], both[1].splitlines()[::3]), (0, ["reads:", "writes:"]))
        self.assertEqual(self.merged(json.loads(Path("merged.json").read_text()))[1], both[1])

    def test_a_failure_that_no_line_has_is_told(self):
        found = Found("version = 2\n", "hang", "", 2, 2, (), 1, 9, 1.0, Path("found"), places=(("silent", "downstream", 1),))
        members = SearchResult((found,), (), (), "done", (), (), 9, 1.0).members()
        status, printed, _ = self.merged({**result_of(), "found": members["found"]}, result_of("writes"))
        self.assertEqual((status, printed.splitlines()[:2]), (1, ["reads:", "hang in 2 of 2 runs, found and shrunk by 9 runs in 1.0 s"]))
        self.assertIn("1 of 2 clients are to be mended", Path("merged.html").read_text())
        self.assertIn("1 downstream silent", Path("merged.html").read_text())

    def test_the_shard_that_did_least_says_how_it_ended(self):
        halves = result_of(shard="1/2"), {**result_of(shard="2/2"), "ended_by": "budget", "phases": []}
        self.assertIn("ended by budget, phases done: none\n", self.merged(*halves)[1])
        halves[1]["ended_by"] = "interrupted"
        self.assertEqual(self.merged(*halves)[0], 130)

    def test_missing_double_and_foreign_shards_are_named(self):
        for results, told in (
            ((result_of(shard="1/3"), result_of(shard="3/3")), ["missing: shard 2/3 of 'reads'"]),
            ((result_of(shard="1/2"), result_of(shard="2/2"), result_of(shard="2/2")), ["double: 3.json has shard 2/2 of 'reads', as 2.json has"]),
            ((result_of(), result_of()), ["double: 2.json has shard 1/1 of 'reads', as 1.json has"]),
            ((result_of(), result_of(seed=2)), ["foreign: 2.json isn't of the search of 1.json: its seed is 2, not 1"]),
            ((result_of(), result_of(conversation="beef")), ["foreign: 2.json isn't of the search of 1.json: its conversation is beef, not c0de"]),
            ((result_of(), result_of(options={"runs": 5})), ["foreign: 2.json isn't of the search of 1.json: its option runs is 5, not 200"]),
            (
                (result_of(shard="1/2"), result_of(shard="1/3")),
                ["foreign: 2.json isn't of the search of 1.json: it is one of 3 shards, not of 2", "missing: shard 2/2 of 'reads'"],
            ),
            ((result_of(), result_of(upstreams=["a", "b"])), ["foreign: 2.json isn't of the search of 1.json: its upstreams are a, b, not shop"]),
        ):
            with self.subTest(told):
                self.assertEqual(self.merged(*results), (2, "", "".join(f"toxi-merge: {line}\n" for line in told)))

    def test_files_that_have_no_result_are_named(self):
        without = {name: value for name, value in result_of().items() if name != "about"}
        for result, told in (
            ("{", r"can't be read as a result: JSONDecodeError: .*"),
            ("[]", r"can't be read as a result: .*"),
            ({"about": {"kind": "search"}}, r"can't be read as a result: KeyError: 'version'"),
            (result_of(kind="walk"), r"can't be read as a result: ValueError: no kind 'walk'"),
            (result_of(version="0.1.0"), r"was written by toxi 0\.1\.0, and this is \d+\.\d+\.\d+"),
            (without, r"doesn't say what it is of: it was written by another version of toxi"),
        ):
            with self.subTest(told):
                status, printed, said = self.merged(result)
                self.assertEqual((status, printed), (2, ""))
                self.assertRegex(said, f"^toxi-merge: 1\\.json {told}\n$")


class ConversationFileTests(unittest.TestCase):
    def test_a_file_that_has_no_conversation_is_named(self):
        path = Path(self.enterContext(tempfile.TemporaryDirectory()), "conversation.json")
        with self.assertRaisesRegex(ToxiError, "conversation.json can't be read as a conversation: FileNotFoundError"):
            read_conversation(path)
        older = '{"version": "0.1.0"}', "was written by toxi 0.1.0, and this is "
        for text, told in (("{", "can't be read as a conversation"), older, ("[]", "can't be read")):
            path.write_text(text)
            with self.assertRaisesRegex(ToxiError, told):
                read_conversation(path)

    def test_options_that_do_not_fit_are_told_at_the_start(self):
        for command in (find_command, sweep_command):
            for words, told in (
                (("--shard", "1/2"), "a shard needs the --conversation that all shards have"),
                (("--shard", "3/2"), "'3/2' isn't a shard K/N with K from 1 to N"),
                (("--json", "/nowhere/result.json"), "argument --json: /nowhere/result.json can't be written"),
                (("--keep-conversation", "/"), "argument --keep-conversation: / can't be written"),
                (("--conversation", "a", "--keep-conversation", "b"), "--keep-conversation records anew, so it takes no --conversation"),
            ):
                said = io.StringIO()
                signals = mock.patch("toxi.sweep_command.take_signals")
                with self.subTest(words=words), signals, contextlib.redirect_stderr(said), self.assertRaises(SystemExit) as end:
                    command.main(["--upstream", "shop=:1", *words, "--", "true"])
                self.assertEqual(end.exception.code, 2)
                self.assertIn(told, said.getvalue())

    def test_a_shard_is_a_part(self):
        self.assertEqual(str(Shard.parsed("2/8")), "2/8")
        for text in ("0/2", "3/2", "1", "a/b", "1/0", "-1/2"):
            with self.assertRaisesRegex(ValueError, "isn't a shard K/N"):
                Shard.parsed(text)


class SocketTests(Searching):
    """The commands, as a CI runs them."""

    def ran(self, command, client, *words):
        given = ["--upstream", f"shop={self.server.address}", "--within", "60", "--allow-status", "7", "--fault", "closed", *words]
        command = [sys.executable, "-m", f"toxi.{command}_command", *given, "--", "bash", "-c", client]
        return subprocess.run(command, cwd=self.folder, capture_output=True, text=True, check=False)

    def merged(self, *words, **environment):
        command = [sys.executable, "-m", "toxi.merge_command", *words]
        return subprocess.run(command, cwd=self.folder, env={**os.environ, **environment}, capture_output=True, text=True, check=False)

    # What each command records, which has no address. Under silence the client takes its whole limit.
    texts = {}

    def kept(self, command):
        path = Path(self.folder, "kept.json")
        if command not in self.texts:
            ran = self.ran(command, RIGHT, "--keep-conversation", path.name)
            self.assertEqual((ran.returncode, ran.stderr), (0, ""))
            self.assertEqual(ran.stdout, "kept kept.json: connections: 1, bytes: 13, time limits: 1\n")
            self.texts[command] = path.read_text()
        path.write_text(self.texts[command])

    def results(self, *names):
        return [json.loads(Path(self.folder, name).read_text()) for name in names]

    def test_shards_of_a_search(self):
        self.kept("find")
        for shard in ("1/1", "1/2", "2/2"):
            ran = self.ran("find", RIGHT, "--runs", "20", "--conversation", "kept.json", "--shard", shard, "--json", f"{shard.replace('/', '-')}.json")
            self.assertEqual((ran.returncode, ran.stderr), (0, ""))
        ran = self.merged("2-2.json", "1-2.json", "--json", "merged.json")
        self.assertEqual((ran.returncode, ran.stderr), (0, ""))
        whole, merged = self.results("1-1.json", "merged.json")
        for name in ("found", "tried", "runs", "phases", "ended_by", "limits"):
            self.assertEqual(merged[name], whole[name], name)
        self.assertEqual(whole["ended_by"], "done")

    def test_shards_that_find_the_same(self):
        self.kept("find")
        for shard in ("1", "2"):
            words = ("--runs", "5", "--conversation", "kept.json", "--shard", f"{shard}/2", "--json", f"{shard}.json", "--folder", f"found-{shard}")
            self.assertEqual(self.ran("find", CUT, *words).returncode, 1)
        files = ("--json", "merged.json", "--page", "page.html", "--junit", "junit.xml")
        ran = self.merged("1.json", "2.json", *files, GITHUB_STEP_SUMMARY=f"{self.folder}/summary.md")
        self.assertEqual((ran.returncode, ran.stderr), (1, ""))
        self.assertTrue(ran.stdout.startswith("status 1 in 20 of 20 runs, "), ran.stdout)
        (found,) = self.results("merged.json")[0]["found"]
        self.assertIn("attributes = { bytes = 3 }\n", found["script"])
        (failure,) = xml.etree.ElementTree.parse(Path(self.folder, "junit.xml")).iter("failure")
        self.assertIn("attributes = { bytes = 3 }\n", failure.text)
        xml.dom.minidom.parse(f"{self.folder}/page.html")
        self.assertIn("| 1 downstream | closed | failed |", Path(self.folder, "summary.md").read_text())

    def test_shards_of_a_sweep(self):
        self.kept("sweep")
        for shard in ("1/1", "1/2", "2/2"):
            ran = self.ran("sweep", CUT, "--jobs", "4", "--conversation", "kept.json", "--shard", shard, "--json", f"{shard.replace('/', '-')}.json")
            self.assertEqual(ran.stderr, "")
        ran = self.merged("1-2.json", "2-2.json", "--json", "merged.json", "--page", "page.html", "--junit", "junit.xml")
        self.assertEqual((ran.returncode, ran.stderr), (1, ""))
        whole, merged = self.results("1-1.json", "merged.json")
        self.assertEqual(failing(merged), failing(whole))
        self.assertEqual(len(failing(whole)), 1)
        for name in ("streams", "recorded", "runs", "chosen", "possible", "ended"):
            self.assertEqual(merged[name], whole[name], name)
        xml.dom.minidom.parse(f"{self.folder}/page.html")
        self.assertEqual(len(list(xml.etree.ElementTree.parse(Path(self.folder, "junit.xml")).iter("failure"))), 1)

    def test_what_was_found_is_told_though_its_file_can_not_be_written(self):
        """As on a disk that is full, /dev/full takes nothing."""
        for command, words, first in (("find", ("--max-found", "1", "--runs", "1"), "status 1 in "), ("sweep", ("--most", "20"), "shop 1: 6 bytes")):
            ran = self.ran(command, CUT, "--json", "/dev/full", *words)
            self.assertEqual((ran.returncode, ran.stderr.count("No space left on device")), (2, 1))
            self.assertTrue(ran.stdout.startswith(first), ran.stdout)

    def test_a_conversation_of_other_upstreams_is_refused(self):
        Path(self.folder, "kept.json").write_text(KeptConversation(("mail",), Conversation(())).text)
        for command in ("find", "sweep"):
            ran = self.ran(command, RIGHT, "--conversation", "kept.json")
            self.assertEqual((ran.returncode, ran.stdout), (2, ""))
            self.assertIn("the conversation is one with the upstreams mail, and the client has shop\n", ran.stderr)


def failing(result):
    """The rows that fail, and how far they reach."""
    return [(row["stream"], row["fault"], row["offset"], row["last_offset"], row["outcome"]) for row in result["rows"] if row["fails"]]


if __name__ == "__main__":
    unittest.main()
