"""The Python package with `http.server` and `urllib`: what a client sees under the toxics. Needs nothing installed."""
import contextlib
import http.client
import socket
import time
import unittest
import urllib.error
import urllib.request

from services import Pages, serving
from toxi import Bandwidth, Latency, LimitData, Link, ResetPeer, Rule, SlowClose, Timeout, Toxi

# Longer than anything here takes on a busy machine, in seconds.
PATIENCE = 20
# What a client sees of a link that was reset or closed too early.
CUT = (ConnectionError, http.client.HTTPException, urllib.error.URLError)
LATE = 10_000


def get(toxi, size, timeout=PATIENCE):
    with urllib.request.urlopen(f"http://{toxi.address('shop')}/{size}", timeout=timeout) as answer:
        return answer.read()


def succeeds(toxi):
    try:
        return len(get(toxi, 1)) == 1
    except CUT:
        return False


class HttpTests(unittest.TestCase):
    def served(self, *rules, **options):
        """A `Toxi` before a server, for as long as the test."""
        with contextlib.ExitStack() as stack:
            server = stack.enter_context(serving(Pages))
            toxi = stack.enter_context(Toxi({"shop": server.address}, rules, **options))
            self.addCleanup(stack.pop_all().close)
        return toxi

    def test_without_rules_everything_passes(self):
        toxi = self.served()
        self.assertEqual(get(toxi, 100_000), b"x" * 100_000)
        link = toxi.wait_for_link("shop", 1, PATIENCE)
        self.assertEqual((link.up_end, link.down_end), ("closed", "closed"))
        self.assertGreater(link.down, 100_000)

    def test_a_link_that_does_not_end_says_why(self):
        toxi = self.served(Rule("shop", [Latency(latency=1, toxicity=0.5)]))
        with self.assertRaisesRegex(TimeoutError, "; no connection yet$"):
            toxi.wait_for_link("shop", 1, 0.1)
        with socket.create_connection(toxi.address("shop"), PATIENCE):
            # The upstream is reached a moment later.
            end = time.monotonic() + PATIENCE
            while toxi._printed.open_for("shop", 1) is None and time.monotonic() < end:
                time.sleep(0.01)
            with self.assertRaisesRegex(TimeoutError, r"; link 1 is open since \d+\.\d s: close the client's connection$"):
                toxi.wait_for_link("shop", 1, 0.1)
            with self.assertRaisesRegex(TimeoutError, "; no connection 2 yet$"):
                toxi.wait_for_link("shop", 2, 0.1)
        toxi.wait_for_link("shop", 1, PATIENCE)
        # What the program tells for this alone isn't shown.
        self.assertEqual([line.split()[0] for line in toxi.lines()], ["listening", "link"])
        self.assertNotIn("has toxicity", toxi.report())

    def test_slow_answer_times_out(self):
        toxi = self.served(Rule("shop", [Latency(latency=LATE)]))
        with self.assertRaisesRegex(OSError, "timed out"):
            get(toxi, 1, timeout=0.3)

    def test_slow_answer_comes_no_sooner(self):
        toxi = self.served(Rule("shop", [Latency(latency=150)]))
        begun = time.monotonic()
        self.assertEqual(get(toxi, 1), b"x")
        self.assertGreaterEqual(time.monotonic() - begun, 0.15)

    def test_silence_times_out(self):
        toxi = self.served(Rule("shop", [Timeout(timeout=0)]))
        with self.assertRaisesRegex(OSError, "timed out"):
            get(toxi, 1, timeout=0.3)

    def test_reset_is_a_connection_error(self):
        toxi = self.served(Rule("shop", [ResetPeer(timeout=0)]))
        with self.assertRaises((ConnectionResetError, urllib.error.URLError)):
            get(toxi, 1)
        self.assertEqual(toxi.wait_for_link("shop", 1, PATIENCE).down_end, "reset")

    def test_answer_is_cut(self):
        toxi = self.served(Rule("shop", [LimitData(bytes=1000)]))
        with self.assertRaises(http.client.IncompleteRead) as caught:
            get(toxi, 5000)
        self.assertLess(len(caught.exception.partial), 1000)
        self.assertEqual(toxi.wait_for_link("shop", 1, PATIENCE).down, 1000)

    def test_third_try_works(self):
        toxi = self.served(Rule("shop", [ResetPeer(timeout=0)], last=2))
        self.assertEqual([succeeds(toxi) for _ in range(3)], [False, False, True])

    def test_a_seed_gives_its_sequence_again(self):
        flaky = Rule("shop", [LimitData(bytes=0, toxicity="0.333")])
        seen = []
        for seed in (7, 7, 8):
            toxi = self.served(flaky, seed=seed)
            seen.append([succeeds(toxi) for _ in range(20)])
        self.assertEqual(seen[0], seen[1])
        self.assertNotEqual(seen[0], seen[2])
        self.assertEqual(set(seen[0]), {True, False})
        # A pick takes a process, so only some links are asked for.
        applied = [toxi.pick("shop", number, "downstream")[0].applied for number in range(1, 7)]
        self.assertEqual(seen[2][:6], [not cut for cut in applied])

    def test_bandwidth_takes_its_time(self):
        toxi = self.served(Rule("shop", [Bandwidth(rate=200)]))
        begun = time.monotonic()
        self.assertEqual(len(get(toxi, 100_000)), 100_000)
        self.assertGreaterEqual(time.monotonic() - begun, 0.5)

    def test_slow_close_of_the_upstream(self):
        toxi = self.served(Rule("shop", [SlowClose(delay=200)]))
        begun = time.monotonic()
        get(toxi, 1)
        toxi.wait_for_link("shop", 1, PATIENCE)
        self.assertGreaterEqual(time.monotonic() - begun, 0.2)

    def test_links_end_it_with_totals(self):
        toxi = self.served(links=2)
        get(toxi, 1)
        get(toxi, 1)
        (total,) = toxi.wait(PATIENCE)
        self.assertEqual((total.proxy, total.links), ("shop", 2))
        self.assertEqual(total.down, sum(link.down for link in toxi.links("shop")))

    def test_a_line_is_a_link(self):
        toxi = self.served(Rule("shop", [LimitData(bytes=3)]))
        with self.assertRaises(CUT):
            get(toxi, 1)
        link = toxi.wait_for_link("shop", 1, PATIENCE)
        self.assertIsInstance(link, Link)
        self.assertIn(str(link), toxi.lines())
        with self.assertRaises(TimeoutError):
            toxi.wait_for_link("shop", 2, 0.01)
