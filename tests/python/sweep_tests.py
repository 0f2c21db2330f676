"""`sweep_faults`: what a client makes of a conversation that ends behind each of its bytes. Needs nothing installed."""
import functools
import itertools
import json
import re
import threading
import time
import unittest
import xml.dom.minidom

from clients import PATIENCE, Refused, correct, one_recv, patient_cut_body, waits
from services import Lines, serving

from toxi import LimitData, Rule, Toxi, ToxiError, sweep_faults
from toxi._search.edges import late_between
from toxi._search.phases import late_point
from toxi.chosen_points import chosen_points
from toxi.conversations import StreamBytes
from toxi.outcomes import HANG, RIGHT, WRONG
from toxi.sweep_rows import SweptRun

EVERY = ("closed", "reset", "silent", "sliced", "slow", "late")
# What a client makes of an end behind a whole request isn't promised: the answer may be faster. Nor of a reset behind a whole answer.
RACES = {
    "upstream 0..5 closed: Refused": "upstream 0..6 closed: Refused",
    "upstream 6 closed: right": None,
    "downstream 0..7 reset: Refused": "downstream 0..6 reset: Refused",
    "downstream 7 reset: right": None,
    "shop all upstream 0 closed: Refused": "shop all upstream 0..6 closed: Refused, 2 of 7 offsets run",
    "shop all upstream 6 closed: right": None,
    "shop all downstream 0..7 reset: Refused, 2 of 8 offsets run": "shop all downstream 0 reset: Refused",
    "shop all downstream 7 reset: right": None,
}
TABLE = """\
shop 1: 6 bytes upstream, 7 downstream
upstream 0..6 closed: Refused
upstream 0..6 reset: Refused
upstream 0..5 silent: Refused, 5 of 6 offsets run
upstream 0..6 slow by .. ms: Refused
downstream 0..6 closed: Refused
downstream 0..6 reset: Refused
downstream 0..6 silent: Refused, 5 of 7 offsets run
downstream 0..7 slow by .. ms: Refused
downstream 0 late by .. ms: Refused
shop all upstream 0..6 closed: Refused, 2 of 7 offsets run
shop all upstream 0..6 reset: Refused, 2 of 7 offsets run
shop all upstream 0 silent: Refused
shop all downstream 0 closed: Refused
shop all downstream 0 reset: Refused
shop all downstream 0 silent: Refused
upstream 6 silent: right
upstream 1..5 sliced: right
upstream 0..6 slow by .. ms: right
downstream 7 closed: right
downstream 7 silent: right
downstream 1..6 sliced: right
downstream 0..7 slow by .. ms: right
downstream 0 late by .. ms: right
shop all upstream 6 silent: right
shop all downstream 7 closed: right
shop all downstream 7 silent: right"""


# Late pieces: their offsets, delays in milliseconds, and verdicts.
LATE = [(0, 100, RIGHT), (0, 180, WRONG), (0, 220, HANG), (40, 100, RIGHT), (40, 190, RIGHT)]


class SweepTests(unittest.TestCase):
    @classmethod
    def setUpClass(cls):
        cls.upstream = cls.enterClassContext(serving(Lines)).address

    def sweep(self, client, **options):
        return sweep_faults({"shop": self.upstream}, client, **options)

    def rows(self, client, **options):
        return [str(row) for row in self.sweep(client, **options).rows if row.number]

    def test_a_correct_client(self):
        sweep = self.sweep(correct, faults=EVERY, jobs=4, within=5)
        # Delays are parts of the time limit as the machine let it be measured.
        lines = [re.sub(r"by [0-9.]+ ms", "by .. ms", line) for line in str(sweep).split("\n")]
        text = [RACES.get(line, line) for line in lines if " runs in " not in line]
        self.assertEqual([line for line in text if line], TABLE.split("\n"))
        self.assertEqual(sweep.failures, [])
        self.assertNotIn("wrong", str(sweep))

    def test_one_recv_taken_for_a_whole_answer(self):
        sweep = self.sweep(functools.partial(one_recv, limit=PATIENCE), faults=("closed", "sliced"), jobs=4)
        self.assertIn("downstream 0..6 closed: wrong answer", map(str, sweep.failures))
        self.assertIn(("downstream", "sliced"), {(row.stream, row.fault) for row in sweep.failures})

    def test_a_cut_body_taken_for_a_whole_one(self):
        sweep = self.sweep(patient_cut_body, faults=["closed"])
        self.assertEqual([str(row) for row in sweep.rows][0], "downstream 2..6 closed: wrong answer")
        self.assertEqual(len(sweep.failures), 1)
        (row,) = sweep.failures
        self.assertEqual((row.rule, row.first.detail), (Rule("shop", [LimitData(bytes=2)], last=1), "b'', right b'hello'"))
        with Toxi({"shop": self.upstream}, [row.rule]) as toxi:
            self.assertEqual(patient_cut_body({"shop": toxi.address()}), b"")

    def test_what_came_once_is_not_to_be_mended(self):
        def sweep(turns):
            """The client is wrong where it is refused for these times. Returns its sweep, and how often it was refused."""
            times = itertools.count()

            def client(addresses):
                try:
                    return correct(addresses)
                except Refused:
                    if next(times) in turns:
                        return b"wrong"
                    raise

            return self.sweep(client, faults=["closed"]), next(times)

        once, refused = sweep({3})
        self.assertRegex(str(once.rows[0]), r"closed: wrong answer, but not in 3 more runs$")
        self.assertEqual(once.failures, [])
        # The last three times were those that looked for it again.
        again, _ = sweep({3, *range(refused - 2, refused + 10)})
        self.assertRegex(str(again.rows[0]), r"closed: wrong answer$")
        self.assertEqual(len(again.failures), 1)

    def test_no_time_limit(self):
        for jobs in (1, 4):
            with self.subTest(jobs=jobs):
                found = self.rows(waits, faults=["silent"], jobs=jobs, within=0.5)
                self.assertEqual(found[:2], ["upstream 0..5 silent: hang, 5 of 6 offsets run", "downstream 0..6 silent: hang, 5 of 7 offsets run"])
                self.assertEqual(found[2:], ["upstream 6 silent: right", "downstream 7 silent: right"])

    def test_a_client_that_never_returns(self):
        def stuck(addresses):
            try:
                return correct(addresses)
            except Refused:
                threading.Event().wait()

        sweep = self.sweep(stuck, faults=["closed"], within=0.5)
        self.assertEqual({row.outcome for row in sweep.rows} - {"right"}, {"hang"})
        self.assertEqual(sum(row.runs for row in sweep.failures), 8)
        self.assertRegex(sweep.left_out[0], r"^not run: \d+ of 19 runs: clients didn't return when their links were broken$")

    def test_what_a_link_never_passed_is_not_reached(self):
        runs = itertools.count()

        def shorter(addresses):
            return correct(addresses, request=b"hello\n" if next(runs) < 2 else b"hi\n")

        found = self.rows(shorter, faults=["closed"], check=lambda answer: True)
        self.assertEqual(found[-2:], ["upstream 4..6 closed: not reached", "downstream 5..7 closed: not reached"])
        # Whether an end behind the whole request is faster than its answer isn't promised, so an upstream row may stand before.
        self.assertEqual([row for row in found[:-2] if row.startswith("downstream")][-1], "downstream 4 closed: right")

    def test_a_connection_that_is_not_made_is_not_reached(self):
        runs = itertools.count()

        def second(addresses):
            first = correct(addresses)
            return correct(addresses) if next(runs) < 2 else first

        found = self.sweep(second, faults=["reset"], most=8).rows
        self.assertEqual({row.outcome for row in found if row.number == 2}, {"not reached"})

    def test_several_proxies_and_connections(self):
        def both(addresses):
            return [correct(addresses), correct(addresses, "mail", b"hi\n"), correct(addresses, request=b"x\n")]

        upstreams = {"shop": self.upstream, "mail": self.upstream}
        for workers in (None, 2):
            with self.subTest(workers=workers):
                sweep = sweep_faults(upstreams, both, faults=["closed"], jobs=4, workers=workers)
                text = str(sweep).split("\n")
                self.assertEqual(text[:2], ["mail 1: 3 bytes upstream, 4 downstream", "shop 1: 6 bytes upstream, 7 downstream"])
                self.assertEqual(text[2], "shop 2: 2 bytes upstream, 3 downstream")
                self.assertEqual(text[4:6], ["mail 1 upstream 0..3 closed: Refused", "mail 1 downstream 0..3 closed: Refused"])
                self.assertIn("shop 2 downstream 3 closed: right", text)
                self.assertEqual(text[-1], "shop all downstream 7 closed: right")

    def test_a_coroutine_function(self):
        async def client(addresses):
            return correct(addresses)

        self.assertEqual(self.rows(client, faults=["closed"])[-1], "downstream 7 closed: right")

    def test_jobs_run_at_once_and_before_comes_before_each(self):
        running, most, before = set(), [0], []

        def client(addresses):
            running.add(threading.get_ident())
            most[0] = max(most[0], len(running))
            time.sleep(0.05)
            running.discard(threading.get_ident())
            return correct(addresses)

        sweep = self.sweep(client, faults=["closed"], jobs=3, before=lambda: before.append(1))
        # Some runs without a fault come first.
        self.assertEqual(most[0], 3)
        self.assertIn(len(before) - len(sweep.swept), range(3, 17))

    def test_at_most_so_many_runs(self):
        sweep = self.sweep(correct, faults=["closed"], most=6)
        self.assertEqual(len(sweep.swept), 6)
        self.assertRegex(str(sweep).split("\n")[-1], r"^left out: \d+ of \d+ runs$")

    def test_what_can_not_be_swept(self):
        runs = itertools.count()
        for told, client, options in (
            ("so give `check`", lambda addresses: correct(addresses) and next(runs), {}),
            ("the client fails without a fault: ValueError: no", lambda addresses: (_ for _ in ()).throw(ValueError("no")), {}),
            ("doesn't return within 0.2 s without a fault", lambda addresses: time.sleep(1), {"within": 0.2}),
            ("makes no connection", lambda addresses: 1, {}),
        ):
            with self.subTest(told=told), self.assertRaisesRegex(ToxiError, told):
                self.sweep(client, **options)
        for told, options in (
            ("no fault 'cut'; there are ", {"faults": ["cut"]}),
            ("no fault is named; there are ", {"faults": []}),
            ("a sweep has at least one run and one job", {"most": 0}),
            ("a sweep has at least one run and one job", {"jobs": 0}),
        ):
            with self.subTest(told=told), self.assertRaisesRegex(ValueError, told):
                self.sweep(correct, **options)

    def test_json_and_page(self):
        def client(addresses):
            return patient_cut_body(addresses)

        sweep = self.sweep(client, faults=["closed", "reset"], most=20, seed=3)
        table = json.loads(sweep.json_text())
        self.assertEqual((table["runs"], table["chosen"], table["possible"], table["ended"]), (20, 20, 38, None))
        self.assertEqual(table["streams"][1], {"proxy": "shop", "link": 1, "stream": "downstream", "bytes": 7, "boundaries": [0, 7]})
        self.assertEqual(len(table["rows"]), len(sweep.rows))
        self.assertEqual((table["rows"][0]["outcome"], table["rows"][0]["fails"]), ("wrong answer", True))
        page = sweep.page_text()
        document = xml.dom.minidom.parseString(page.partition("\n")[2])
        self.assertEqual(len(document.getElementsByTagName("tr")), 1 + len(sweep.rows))
        strips = [each for each in document.getElementsByTagName("div") if each.getAttribute("class") == "strip"]
        self.assertEqual(len(strips), 4)
        for word in ("wrong answer", "prefers-color-scheme:dark", "downstream closed", "left out: 18 of 38 runs"):
            self.assertIn(word, page)
        self.assertNotRegex(page, r"(src|href)=|url\(|<script")


class ChosenPointsTests(unittest.TestCase):
    STREAM = StreamBytes("shop", 1, "downstream", 40, "closed", (10, 30))

    def chosen(self, faults, most=1000, every_silence=False, streams=(STREAM,), seed=1):
        return chosen_points(streams, faults, most=most, every_silence=every_silence, within=10, seed=seed)

    def offsets(self, *given, **options):
        return [point.offset for point in self.chosen(*given, **options).points]

    def test_each_offset_but_silence_beside_boundaries(self):
        self.assertEqual(sorted(self.offsets(["closed"])), list(range(41)))
        self.assertEqual(sorted(self.offsets(["silent"])), [0, 1, 9, 10, 11, 39, 40])
        self.assertEqual(sorted(self.offsets(["silent"], every_silence=True)), list(range(41)))
        self.assertEqual(sorted(self.offsets(["sliced"])), list(range(1, 30)))
        self.assertEqual(self.offsets(["slow"]), [0])

    def test_boundaries_come_first(self):
        self.assertEqual(self.offsets(["closed"], most=3), [0, 10, 40])
        self.assertEqual(self.offsets(["closed"], most=7), [0, 10, 40, 1, 9, 11, 39])
        chosen = self.chosen(["closed"], most=12)
        self.assertEqual((len(chosen.points), chosen.left_out), (12, 29))
        self.assertEqual(len(set(chosen.points)), 12)
        self.assertEqual(chosen, self.chosen(["closed"], most=12))
        self.assertNotEqual(chosen, self.chosen(["closed"], most=12, seed=2))

    def test_half_of_the_other_runs_are_at_the_heads_of_streams(self):
        large = StreamBytes("shop", 1, "downstream", 10**6, "closed", (10**6,))
        # Two of the four near the boundaries lie there too.
        for most, heads in ((2000, 512), (404, 2 + 200)):
            offsets = self.offsets(["closed"], most=most, streams=[large])
            self.assertEqual((len(offsets), len(set(offsets))), (most, most))
            self.assertEqual(len([offset for offset in offsets if offset < 512]), heads)

    def test_late_pieces_are_bisected(self):
        stream = StreamBytes("shop", 1, "downstream", 50, "closed", (10,) * 5, tuple(range(0, 50_000, 10_000)))
        late = [SweptRun(late_point(stream, offset, delay), verdict, True) for offset, delay, verdict in LATE]
        found = late_between(late, {stream.key: stream})
        # Between 100 and 180 ms there is an edge, and between 180 and 220 none that a client keeps to. Of the pieces at 0 and 40 the one between them is run.
        self.assertEqual([(point.offset, point.delay // 1000) for point in found], [(0, 140), (20, 180), (20, 220)])
        again = [*late, *(SweptRun(point, WRONG, True) for point in found)]
        self.assertNotIn(found[0], late_between(again, {stream.key: stream}))

    def test_a_stream_of_a_gigabyte(self):
        begun = time.monotonic()
        large = StreamBytes("shop", 1, "downstream", 10**9, "closed", (16384,) * (10**9 // 16384))
        self.assertEqual(len(self.chosen(["closed"], most=2000, streams=[large]).points), 2000)
        self.assertLess(time.monotonic() - begun, 30)

    def test_delays_stay_below_a_part_of_the_limit(self):
        for point in self.chosen(["sliced"]).points:
            self.assertLessEqual(-(-40 // point.offset) * point.delay, 1_000_000)
        (slow,) = self.chosen(["slow"]).points
        self.assertEqual(slow.toxic.latency, 500)
