"""Rules as they are written in Python, what is wrong with them, and names of proxies. Needs nothing installed."""
import os
import pickle
import unittest
import warnings
from datetime import timedelta
from unittest import mock

from toxi import Bandwidth, Latency, Proxy, ResetPeer, Rule, Slicer, Timeout, Toxi, ToxiError, ToxiFault, ToxiWarning, script_text, thousandths

# Nothing listens there: port 1 of this machine.
NOWHERE = {"shop": "127.0.0.1:1"}
MISSPELT = "[[rule]]\nproxy = 'shpo'\nfirst = 1\n"


class WrittenTests(unittest.TestCase):
    def test_a_rule_takes_its_toxics_second(self):
        rule = Rule("shop", [Latency(latency=1)], last=2)
        self.assertEqual((rule.toxics, rule.first, rule.last), ((Latency(latency=1),), 1, 2))
        self.assertEqual(rule, Rule("shop", toxics=[Latency(latency=1)], last=2))
        for wrong in (3, Latency(latency=1), "ab", [ResetPeer]):
            self.assertRaises(TypeError, Rule, "shop", wrong)
        self.assertRaises(TypeError, Rule, "shop", [], 1)

    def test_attributes_are_given_by_keyword(self):
        for values in ((100,), ("slow", "upstream", 100)):
            with self.assertRaisesRegex(TypeError, "by keyword: .*100 has no name"):
                Latency(*values)
        with self.assertRaisesRegex(TypeError, "Latency has no 'delay'; it has name, stream, toxicity, latency, jitter, until, from_$"):
            Latency(delay=100)

    def test_what_has_no_default_is_given(self):
        for kind, values, missing in ((Bandwidth, {}, "rate"), (Slicer, {"delay": 1}, "average_size")):
            with self.assertRaisesRegex(TypeError, f"^{kind.__name__} needs {missing}$"):
                kind(**values)
        self.assertEqual(pickle.loads(pickle.dumps(Bandwidth(rate=5))), Bandwidth(rate=5))

    def test_a_connect_timeout_has_a_unit(self):
        for wrong in (0.5, "500", True):
            with self.assertRaisesRegex(TypeError, "^connect_timeout is a whole number of milliseconds or a timedelta, not "):
                Toxi(NOWHERE, connect_timeout=wrong)
        with self.assertWarnsRegex(ToxiWarning, r"^connect_timeout=5 is in milliseconds: write timedelta\(seconds=5\)") as caught:
            Toxi(NOWHERE, connect_timeout=5)
        self.assertEqual(caught.filename, __file__)
        with warnings.catch_warnings():
            warnings.simplefilter("error")
            for given, milliseconds in ((timedelta(seconds=0.5), 500), (timedelta(microseconds=1001), 2), (50, 50)):
                with Toxi(NOWHERE, connect_timeout=given) as toxi:
                    self.assertIn(f"--connect-timeout {milliseconds}", " ".join(toxi.command))

    def test_the_environment_gives_no_option(self):
        with mock.patch.dict(os.environ, {name: "none" for name in ("TOXI_CONFIG", "TOXI_SCRIPT", "TOXI_SEED", "TOXI_WORKERS")}):
            with Toxi(NOWHERE) as toxi:
                self.assertEqual(toxi.seed, 1)

    def test_rules_are_a_list(self):
        for wrong in (Rule("shop"), None, 3):
            with self.assertRaisesRegex(TypeError, "^rules are a list of Rule, or the text of a script, not "):
                Toxi(NOWHERE, wrong)
        for wrong in ([Latency(latency=1)], ["shop"]):
            with self.assertRaisesRegex(TypeError, r" is no Rule: Rule\('shop', \[\.\.\]\)$"):
                Toxi(NOWHERE, wrong)

    def test_proxies_are_a_mapping_or_a_list(self):
        for wrong in (None, 3, Proxy("shop", "127.0.0.1:1")):
            with self.assertRaisesRegex(TypeError, "^proxies are a mapping from names to upstreams, a list of Proxy, or the text of a populate file, not "):
                Toxi(wrong)
        for wrong in (["shop"], [None], b"[]"):
            with self.assertRaisesRegex(TypeError, r" is no Proxy: Proxy\('shop', '127\.0\.0\.1:8080'\)$"):
                Toxi(wrong)

    def test_what_cant_stand_in_a_script_has_its_place(self):
        for rule, told in (
            (Rule("shop", [Latency(latency=None)]), "latency of Latency(latency=None) is None, which can't stand in a script"),
            (Rule("shop", [Timeout(from_=[])]), "from of Timeout(from_=[]) is [], which can't stand in a script"),
            (Rule("shop", [Latency(stream=None)]), "stream of Latency(stream=None) is None, which can't stand in a script"),
            (Rule(None), "proxy of Rule(proxy=None) is None, which can't stand in a script"),
            (Rule("shop", first=b"1"), "first of Rule(proxy='shop', first=b'1') is b'1', which can't stand in a script"),
        ):
            with self.assertRaises(TypeError) as caught:
                script_text([rule])
            self.assertEqual(str(caught.exception), told)

    def test_a_repr_shows_what_was_given(self):
        rule = Rule("shop", [Latency(latency=5, toxicity=0.25)], last=2)
        self.assertEqual(repr(rule), "Rule(proxy='shop', toxics=(Latency(toxicity=0.25, latency=5),), last=2)")
        self.assertEqual(repr(Latency()), "Latency()")

    def test_from_and_after(self):
        toxics = [Latency(latency=1, from_=5), Timeout(from_=6, after=7), Timeout(name="now"), ResetPeer(after=8, timeout=9)]
        text = script_text([Rule("shop", toxics)])
        written = [line for line in text.splitlines() if line.startswith("attributes")]
        wanted = ["latency = 1, jitter = 0, from = 5", "timeout = 0, from = 6, after = 7", "timeout = 0", "timeout = 9, after = 8"]
        self.assertEqual(written, [f"attributes = {{ {attributes} }}" for attributes in wanted])
        self.assertEqual(repr(toxics[1]), "Timeout(from_=6, after=7)")
        with self.assertWarns(ToxiWarning), Toxi(NOWHERE, [Rule("shop", toxics)]) as toxi:
            picked = [toxic.attributes for toxic in toxi.pick("shop", 1, "downstream")]
        self.assertEqual(picked[1], {"timeout": 0, "from": 6, "after": 7, "toxicity": 1000})
        self.assertEqual(picked[2], {"timeout": 0, "toxicity": 1000})

    def test_from_and_after_that_are_refused(self):
        for toxic in (Slicer(average_size=1, from_=3_600_001), Timeout(after=2**40 + 1), ResetPeer(after=-1), Timeout(from_=False)):
            with self.assertRaises(ToxiFault) as caught:
                Toxi(NOWHERE, [Rule("shop", [toxic])]).start()
            self.assertEqual(caught.exception.line, "S5 OutOfRange 1 1")

    def test_toxicities(self):
        written = ((0.001, '"0.001"'), (0.1 + 0.2, '"0.3"'), (0.0, '"0.0"'), (1.0, '"1.0"'), ("0.5", '"0.5"'), (0, "0"), (101, "101"), (300, "300"))
        for toxicity, text in written:
            self.assertIn(f"toxicity = {text}\n", script_text([Rule("shop", [Latency(latency=1, toxicity=toxicity)])]))
        toxics = [Latency(latency=1, toxicity=toxicity, name=str(toxicity)) for toxicity, _ in written]
        with self.assertWarns(ToxiWarning), Toxi(NOWHERE, [Rule("shop", toxics)]) as toxi:
            picked = [toxic.attributes["toxicity"] for toxic in toxi.pick("shop", 1, "downstream")]
        self.assertEqual(picked, [1, 300, 0, 1000, 500, 0, 101, 300])

    def test_a_toxicity_that_reads_as_percent_is_a_warning(self):
        for toxicity, told in (
            (2, "2 thousandths, 0.2 % of the links, and may be read as 2 %: write toxicity=thousandths(2) or toxicity=0.002 for the first, "
             "toxicity=0.02 for the second"),
            (30, "30 thousandths, 3 % of the links, and may be read as 30 %: write toxicity=thousandths(30) or toxicity=0.03 for the first, "
             "toxicity=0.3 for the second"),
            (100, "100 thousandths, 10 % of the links, and may be read as 100 %: write toxicity=thousandths(100) or toxicity=0.1 for the first, "
             "toxicity=1.0 for the second"),
        ):
            with self.assertWarns(ToxiWarning) as caught:
                kept = Latency(latency=1, toxicity=toxicity)
            self.assertEqual(str(caught.warning), f"toxicity={toxicity} is {told}")
            self.assertEqual(caught.filename, __file__)
            self.assertIn(f"toxicity = {toxicity}\n", script_text([Rule("shop", [kept])]))

    def test_thousandths_warn_of_nothing(self):
        with warnings.catch_warnings():
            warnings.simplefilter("error", ToxiWarning)
            for toxicity in (0, 101, 300, 1000, 0.3, 1.0, "0.3", "1.0", None):
                Latency(latency=1, toxicity=toxicity)
            meant = [thousandths(number) for number in (0, 1, 2, 30, 100, 125, 1000)]
            toxics = [Latency(latency=1, toxicity=number, name=f"meant_{number}") for number in meant]
            text = script_text([Rule("shop", toxics)])
            written = [line for line in text.splitlines() if line.startswith("toxicity")]
            self.assertEqual(written, [f'toxicity = "{part}"' for part in ("0.0", "0.001", "0.002", "0.03", "0.1", "0.125", "1.0")])
            self.assertEqual([toxic.name for toxic in toxics[:2]], ["meant_0", "meant_1"])
            with Toxi(NOWHERE, [Rule("shop", toxics[1:])]) as toxi:
                picked = [toxic.attributes["toxicity"] for toxic in toxi.pick("shop", 1, "downstream")]
        self.assertEqual(picked, meant[1:])
        self.assertEqual(repr(toxics[3]), "Latency(name='meant_30', toxicity=thousandths(30), latency=1)")
        for wrong in (0.3, "0.3", True, None):
            self.assertRaisesRegex(TypeError, " is no whole number of thousandths$", thousandths, wrong)
        for refused in (1001, -1):
            with self.assertRaises(ToxiFault) as caught:
                Toxi(NOWHERE, [Rule("shop", [Latency(latency=1, toxicity=thousandths(refused))])]).start()
            self.assertEqual(caught.exception.line, "S7 ToxicityNotThousandths 1 1")

    def test_toxicities_that_are_refused(self):
        with self.assertRaisesRegex(ValueError, "1.0, or leave it out, for every link, and toxicity=0.001 for one link in a thousand"):
            Latency(latency=1, toxicity=1)
        for toxicity in (0.0005, 1e-5, 1.5, -0.5, float("nan"), float("inf"), True, 1001):
            with self.assertRaises(ToxiFault) as caught:
                Toxi(NOWHERE, [Rule("shop", [Latency(latency=1, toxicity=toxicity)])]).start()
            self.assertEqual(caught.exception.line, "S7 ToxicityNotThousandths 1 1")


class CheckTests(unittest.TestCase):
    def test_a_rule_for_no_proxy_is_an_error(self):
        for rules, place in (([Rule("shop"), Rule("shpo")], "rule 2: Rule(proxy='shpo')"), (MISSPELT, "rule 1: line 1 of the script")):
            with self.assertRaises(ToxiError) as caught:
                Toxi(NOWHERE, rules).start()
            self.assertIn(f"never applies: no proxy shpo (shop?), at {place}", str(caught.exception))

    def test_what_has_no_effect_is_a_warning(self):
        with self.assertWarns(ToxiWarning) as caught, Toxi(NOWHERE, [Rule("shop"), Rule("shop", [Latency(latency=1)])]):
            pass
        self.assertEqual(str(caught.warning).split(", at ")[0], "rule 2 never applies: rule 1 covers its connections")
        self.assertEqual(caught.filename, __file__)

    def test_a_warning_may_be_an_error(self):
        with warnings.catch_warnings():
            warnings.simplefilter("error", ToxiWarning)
            with self.assertRaisesRegex(ToxiWarning, r"it delays nothing, at toxic 1 of rule 1: Latency\(\)"):
                Toxi(NOWHERE, [Rule("shop", [Latency()])]).start()
            with Toxi(NOWHERE, [Rule("shop", [Latency(latency=1)])]):
                pass


class NameTests(unittest.TestCase):
    def test_one_proxy_needs_no_name(self):
        with Toxi(NOWHERE) as toxi:
            host, port = toxi.address()
            self.assertEqual((host, port), toxi.address("shop"))
            self.assertEqual((str(toxi.address()), toxi.url(), toxi.url("shop")), (f"{host}:{port}", *[f"http://{host}:{port}"] * 2))

    def test_an_unknown_name_lists_the_names(self):
        proxies = [Proxy("shop", "127.0.0.1:1"), Proxy("mail", "127.0.0.1:1"), Proxy("off", "127.0.0.1:1", enabled=False)]
        with Toxi(proxies) as toxi:
            for call in (toxi.address, toxi.url, toxi.links, lambda name: toxi.wait_for_link(name, 1, 20)):
                with self.assertRaisesRegex(KeyError, "no proxy 'shpo'; there are 'shop', 'mail'"):
                    call("shpo")
            for call in (toxi.address, toxi.url):
                with self.assertRaisesRegex(KeyError, "name one of these proxies: 'shop', 'mail'"):
                    call()
            self.assertRaises(KeyError, toxi.address, "off")
            self.assertEqual((toxi.links("off"), toxi.links()), ([], []))
