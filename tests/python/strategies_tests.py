"""What Hypothesis draws of toxics and rules, and what it shrinks to. Needs Hypothesis."""
import sys
import tempfile
import unittest
from dataclasses import fields
from pathlib import Path
from unittest import mock

from hypothesis import HealthCheck, given, settings
from hypothesis import find as find_by_default

import toxi
from toxi import Bandwidth, Latency, LimitData, ResetPeer, Rule, Slicer, SlowClose, Timeout, script_text, strategies
from toxi.commands import answer_of
from toxi.program import found_program
from toxi.proxies import populate_text

ANY = settings(max_examples=2000, database=None, deadline=None, derandomize=True, suppress_health_check=list(HealthCheck))
WITHIN = 2.0
PROXIES = {"shop": "127.0.0.1:1", "mail": "127.0.0.1:1"}


def find(strategy, condition):
    """What a strategy shrinks to. Nothing is kept for a later run."""
    return find_by_default(strategy, condition, settings=settings(max_examples=2000, database=None))


def drawn(strategy, limits=ANY):
    """What a strategy draws."""
    seen = []

    @limits
    @given(strategy)
    def see(value):
        seen.append(value)

    see()
    return seen


class StrategiesTests(unittest.TestCase):
    def test_the_program_takes_2000_drawn_scripts(self):
        """As one script of all their rules: the program judges each rule by itself, whatever stands around it."""
        scripts = drawn(strategies.rules(PROXIES, within=WITHIN, bytes=5000))
        self.assertEqual(len(scripts), 2000)
        rules = [rule for script in scripts for rule in script]
        with tempfile.TemporaryDirectory() as folder:
            config, script = Path(folder, "proxies.json"), Path(folder, "script.toml")
            config.write_text(populate_text(PROXIES))
            script.write_text(script_text(rules))
            answer = answer_of([found_program(), "check", "--config", str(config), "--script", str(script), "--verbose"])
        self.assertEqual((answer.status, answer.said), (0, ""))
        toxics = [toxic for rule in rules for toxic in rule.toxics]
        self.assertRegex(answer.lines[-1], f"2 proxies.* {len(rules)} rules.* {len(toxics)} toxics")
        self.require_all_values(rules, toxics)

    def require_all_values(self, rules, toxics):
        """Each proxy, stream and kind is drawn, and each attribute with and without a value."""
        self.assertEqual({rule.proxy for rule in rules}, set(PROXIES))
        self.assertEqual({toxic.stream for toxic in toxics}, {"upstream", "downstream"})
        self.assertEqual({toxic.toxicity is None for toxic in toxics}, {True, False})
        values = {(type(toxic), name, value > 0) for toxic in toxics for name, value in vars(toxic).items() if isinstance(value, int)}
        for kind in (LimitData, ResetPeer, Timeout, Latency, SlowClose, Bandwidth, Slicer):
            for name in {field.name for field in fields(kind)} - {"name", "stream", "toxicity"}:
                self.assertIn((kind, name, True), values)
        self.assertEqual({rule.last is None for rule in rules}, {True, False})
        self.assertLess(len({(rule.first, rule.last) for rule in rules}), 12)

    def test_delays_leave_a_client_its_time(self):
        short, long = WITHIN * 100, WITHIN * 1000
        for toxic in drawn(strategies.toxics(within=WITHIN)):
            if isinstance(toxic, Latency):
                self.assertTrue(toxic.latency + toxic.jitter < short or toxic.latency - toxic.jitter > long, toxic)
            elif isinstance(toxic, (SlowClose, Timeout)):
                delay = toxic.delay if isinstance(toxic, SlowClose) else toxic.timeout
                self.assertTrue(delay < short or delay > long, toxic)
            elif isinstance(toxic, Bandwidth):
                self.assertLess(1024 / toxic.rate, long / 2)
            elif isinstance(toxic, Slicer):
                self.assertLess(1024 // (toxic.average_size - toxic.size_variation) * toxic.delay / 1000, long / 2)

    def test_trickles_are_asked_for(self):
        slow = find(strategies.toxics(kinds=["slicer"], within=WITHIN, trickle=True), lambda toxic: toxic.average_size == 1 and toxic.delay > 100_000)
        self.assertEqual(slow.type, "slicer")

    def test_what_rules_shrink_to(self):
        self.assertEqual(find(strategies.rules(["shop"]), lambda rules: True), [])
        for kind in (LimitData, ResetPeer, Timeout, Latency, SlowClose):
            smallest = find(strategies.rules(["shop"]), lambda rules: any(isinstance(toxic, kind) for rule in rules for toxic in rule.toxics))
            self.assertEqual(smallest, [Rule("shop", [kind()], last=1)])
        upstream = find(strategies.rules(["shop"]), lambda rules: any(rule.first == 2 and toxic.stream == "upstream" for rule in rules for toxic in rule.toxics))
        self.assertEqual(upstream, [Rule("shop", [LimitData(stream="upstream")], first=2, last=2)])

    def test_what_is_asked_for_is_drawn(self):
        limits = settings(ANY, max_examples=200)
        some = drawn(strategies.toxics(stream="upstream", kinds=["latency", "slicer"]), limits)
        self.assertEqual({(toxic.stream, toxic.type) for toxic in some}, {("upstream", "latency"), ("upstream", "slicer")})
        self.assertTrue(all(0 <= seed < 2**64 for seed in drawn(strategies.seeds(), limits)))
        for wrong in ({"stream": "down"}, {"kinds": ["delay"]}, {"kinds": []}):
            with self.assertRaisesRegex(ValueError, "there are "):
                strategies.toxics(**wrong)
        for wrong in ({"connections": 0}, {"most_toxics": 33}):
            with self.assertRaisesRegex(ValueError, "rules need a proxy"):
                strategies.rules(["shop"], **wrong)


class MissingTests(unittest.TestCase):
    def test_without_hypothesis_the_error_names_it(self):
        with mock.patch.dict(sys.modules, {"hypothesis": None}):
            sys.modules.pop("toxi.strategies")
            del toxi.strategies
            with self.assertRaisesRegex(ModuleNotFoundError, r"pip install hypothesis"):
                toxi.find_fault({"shop": "127.0.0.1:1"}, lambda addresses: None)
