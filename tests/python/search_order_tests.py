"""What a search finds and counts is equal for any number of workers, in whatever order their runs end. Needs Hypothesis."""
import heapq
import itertools
import random
import unittest
from collections import deque
from functools import lru_cache, partial
from pathlib import Path
from unittest import mock

import clients
from find_tests import Searching
from toxi import Latency, LimitData, Link, ResetPeer, Search, Slicer, Timeout
from toxi._search import drawing
from toxi._search.in_order import InOrder
from toxi._search.searching import SearchLimits
from toxi._search.searching import Searching as SearchUnderWay
from toxi.batches import BatchRun, ClientSetup
from toxi.conversations import StreamBytes
from toxi.outcomes import Equals, Judge, Outcome

WORKERS = (1, 2, 3, 4, 8, 64)
# So many runs of a hundred are lost with their worker.
LOST = (0, 0, 5, 30)
WITHIN = 10.0
# A quarter of it is that of the hangs, which stop being shrunk then.
BUDGET = 400.0
SIZES = {"upstream": 30, "downstream": 110}
PIECES = {"upstream": (30,), "downstream": (10, 100)}
# Faults, drawn scripts, failures that end a search, and in how many orders: in 1,000 together.
SEARCHES = (
    (drawing.DrawnFaults(connections=1, words=("closed", "silent")), 8, 50, 210),
    (drawing.DrawnFaults(), 40, 2, 760),
    (drawing.DrawnFaults(), 40, 50, 30),
)
SHOWN = ("ended_by", "found", "flaky", "tried", "runs", "phases", "limits")


class PretendedBatch:
    """Runs of a client that takes no time, by pretended workers. Each run takes a drawn time, and some are lost."""

    workers = 1
    lost = 0
    numbers = random.Random(0)

    def __init__(self, setup, runs, ended=lambda run: True, wanted=lambda run: True, reads_logs=True):
        self.runs, self._ended, self._wanted = runs, ended, wanted

    def run(self):
        waiting, busy, order, now = deque(self.runs), [], itertools.count(), 0.0
        while waiting or busy:
            while waiting and len(busy) < self.workers:
                run = waiting.popleft()
                if self._wanted(run):
                    heapq.heappush(busy, (now + self.numbers.expovariate(1), next(order), run))
            if busy:
                now, _, run = heapq.heappop(busy)
                if not self._goes_on(run):
                    waiting.clear()

    def _goes_on(self, run):
        is_faulted = run.case.rules or run.case.refused
        if is_faulted and self.numbers.randrange(100) < self.lost:
            return True
        run.outcome, run.links, run.streams = came_of(run.case)
        return self._ended(run) and not run.outcome.hung


def came_of(case):
    """What comes of a run, which the script alone decides: its outcome, its links and its streams."""
    toxics = [(rule.first, toxic) for rule in case.rules if rule.proxy == "shop" and rule.first <= 2 for toxic in rule.toxics]
    carried = {(number, stream): size for number in (1, 2) for stream, size in SIZES.items()}
    for number, toxic in toxics:
        if isinstance(toxic, LimitData):
            carried[number, toxic.stream] = min(carried[number, toxic.stream], toxic.bytes)
    links = [] if case.refused else [Link("shop", each, carried[each, "upstream"], "closed", carried[each, "downstream"], "closed") for each in (1, 2)]
    streams = [
        StreamBytes("shop", number, stream, size, "closed", PIECES[stream], (1000, 2000)[: len(PIECES[stream])], 302_000)
        for number in (1, 2)
        for stream, size in SIZES.items()
    ]
    return outcome_of(case, toxics), links, streams


def outcome_of(case, toxics):
    if case.refused:
        return Outcome(error=ConnectionRefusedError())
    for number, toxic in toxics:
        is_down = toxic.stream == "downstream"
        if isinstance(toxic, Timeout) and not is_down and toxic.after >= 5:
            return Outcome(hung=True, seconds=WITHIN)
        if isinstance(toxic, ResetPeer) and not is_down and toxic.after > 7:
            return Outcome(error=KeyError("reset"))
        if isinstance(toxic, LimitData) and is_down and 10 < toxic.bytes < 110:
            return Outcome(answer=b"cut")
        if isinstance(toxic, LimitData) and not is_down and number == 2:
            return Outcome(error=RuntimeError("short"))
        if isinstance(toxic, Latency) and toxic.latency > 300 and is_down:
            return Outcome(answer=b"late")
        if isinstance(toxic, Slicer) and toxic.average_size == 1:
            return Outcome(error=ZeroDivisionError())
        if not isinstance(toxic, (Latency, Slicer)):
            return Outcome(error=TimeoutError(), seconds=0.5)
    return Outcome(answer=b"right")


@lru_cache(maxsize=None)
def drawn(seed):
    """Hypothesis draws once for all orders."""
    return list(itertools.islice(REAL_DRAWS(seed), 400))


REAL_DRAWS = drawing.drawn_scripts


def searched(faults, runs, max_found):
    """A search by pretended workers, and what it came to."""
    handed = []
    setup = ClientSetup({"shop": "127.0.0.1:1"}, None, WITHIN, None, 1, {})
    judge = Judge(Equals(b"right"))
    searching = SearchUnderWay(setup, lambda outcomes: judge, faults, SearchLimits(runs, BUDGET, max_found), 1, Path("/"), handed.append)
    with mock.patch("toxi._search.running.Batch", PretendedBatch), mock.patch("toxi._search.drawing.drawn_scripts", lambda seed: iter(drawn(seed))):
        ended_by = searching.run()
    found = [(str(each.verdict), each.failure.case.key, each.failed, each.repeated) for each in handed]
    flaky = [(str(each.verdict), each.case.key) for each in searching.flaky]
    tried = sorted((place, tally.runs, tally.reached) for place, tally in searching.runner.tallies.items())
    return ended_by, found, flaky, tried, searching.runner.count, searching.done, searching.conversation.limits


class PretendedTests(unittest.TestCase):
    def test_any_order_of_ends_gives_the_same(self):
        for *options, max_found, orders in SEARCHES:
            search = partial(searched, *options, max_found)
            PretendedBatch.workers, PretendedBatch.lost = 1, 0
            right = dict(zip(SHOWN, search()))
            self.assertEqual(right["ended_by"], "max_found" if max_found == 2 else "done")
            self.assertGreaterEqual(len(right["found"]), 2)
            for order in range(orders):
                numbers = random.Random(order)
                PretendedBatch.workers, PretendedBatch.lost, PretendedBatch.numbers = numbers.choice(WORKERS), numbers.choice(LOST), numbers
                self.assertEqual(dict(zip(SHOWN, search())), right, (order, PretendedBatch.workers, PretendedBatch.lost))


class InOrderTests(unittest.TestCase):
    def setUp(self):
        self.runs = [BatchRun(number) for number in range(5)]
        self.unwanted = set()
        self.taken = []

    def order(self, last=9):
        return InOrder(self.runs, lambda run: self.taken.append(run.case) or run.case < last, lambda case: case not in self.unwanted)

    def came(self, order, number):
        self.runs[number].verdict = "right"
        return order.advance()

    def test_what_ends_early_waits(self):
        order = self.order()
        self.assertTrue(self.came(order, 2) and self.came(order, 1))
        self.assertEqual((self.taken, [run.case for run in order.to_run]), ([], [0, 3, 4]))
        self.came(order, 0)
        self.assertEqual(self.taken, [0, 1, 2])

    def test_what_began_before_it_was_known_to_be_unwanted_is_dropped(self):
        order = self.order()
        self.came(order, 1)
        self.unwanted = {1, 4}
        self.assertFalse(order.may_begin(self.runs[4]))
        self.came(order, 0)
        self.assertEqual((self.taken, [run.case for run in order.left]), ([0], [2, 3, 4]))

    def test_what_ends_the_batch_leaves_the_others(self):
        order = self.order(last=1)
        for number in (3, 1, 2):
            self.came(order, number)
        self.assertFalse(self.came(order, 0))
        self.assertEqual((self.taken, [run.case for run in order.left], order.to_run), ([0, 1], [2, 3, 4], []))


def by_bytes(addresses):
    """It fails by the bytes alone that come: two in one way, and fewer or more in another."""
    body = clients.cut_body(addresses, 60)
    if len(body) == 2:
        raise KeyError(body)
    return body


class SocketTests(Searching):
    def test_any_number_of_jobs_gives_the_same(self):
        """Faults that end the answer behind some bytes: what the client gets then is no matter of time."""
        results = []
        for jobs in (1, 5):
            search = Search(self.shop, by_bytes, within=300.0, jobs=jobs)
            found = search.find(runs=60, budget=500.0, faults=["closed"], stream="downstream", folder=Path(self.folder, str(jobs)), watch=lambda progress: None)
            told = [(each.kind, each.script, each.failed, each.repeated, each.runs) for each in found.found]
            results.append((found.ended_by, told, found.flaky, found.tried, found.runs, found.phases))
        self.assertEqual(results[0][0], "done")
        self.assertEqual({each[0] for each in results[0][1]}, {"wrong answer", "exception KeyError"})
        self.assertEqual(results[1], results[0])


if __name__ == "__main__":
    unittest.main()
