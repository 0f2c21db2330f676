"""The process of a `Toxi` is ended whatever happens, and a wrong script says where it is wrong. Needs nothing installed."""
import asyncio
import math
import os
import signal
import subprocess
import sys
import tempfile
import threading
import time
import unittest
from unittest import mock

from services import sigint_heeded
from toxi import AsyncToxi, Latency, Link, Proxy, Rule, Slicer, Toxi, ToxiEnded, ToxiError, ToxiFault
from toxi.lines import parse
from toxi.process import Process

PATIENCE = 20
# Nothing listens there: port 1 of this machine.
NOWHERE = {"shop": "127.0.0.1:1"}
# A test run that starts a proxy, tells its process, and then does what is put in.
RUN = """
import os, signal, sys, time
from toxi import Toxi
# A script that starts the tests by `&` has SIGINT ignored.
signal.signal(signal.SIGINT, signal.default_int_handler)
def run():
    with Toxi({"shop": "127.0.0.1:1"}) as toxi:
        print(toxi._process._child.pid, flush=True)
        ACT
run()
"""
# A test run whose proxy is started in a thread or under asyncio. It tells its process, and then those of children that outlive it: another program, and a fork.
PARENT = """
import asyncio, os, subprocess, sys, threading, time
from toxi import AsyncToxi, Toxi
async def start_async():
    global toxi
    toxi = await AsyncToxi({"shop": "127.0.0.1:1"}).__aenter__()
    tell()
    await asyncio.sleep(60)
def start():
    global toxi
    toxi = Toxi({"shop": "127.0.0.1:1"}).__enter__()
def tell():
    other = subprocess.Popen(["sleep", "60"], stdin=subprocess.DEVNULL, stdout=subprocess.DEVNULL)
    fork = os.fork()
    if fork == 0:
        os.closerange(0, 3)
        time.sleep(60)
        os._exit(0)
    print(toxi._process._child.pid, other.pid, fork, flush=True)
if sys.argv[1] == "asyncio":
    asyncio.run(start_async())
else:
    thread = threading.Thread(target=start)
    thread.start()
    thread.join()
    tell()
    time.sleep(60)
"""


def lives(process):
    """Whether a process is there and has not ended."""
    try:
        with open(f"/proc/{process}/stat") as file:
            return file.read().rpartition(")")[2].split()[0] not in "ZX"
    except FileNotFoundError:
        return False


class EndingTests(unittest.TestCase):
    def ends_with(self, act, to_parent=None):
        """Runs what is put in, and checks that no proxy is left."""
        # What a killed run leaves behind.
        left = tempfile.TemporaryDirectory()
        self.addCleanup(left.cleanup)
        run = subprocess.Popen(
            [sys.executable, "-c", RUN.replace("ACT", act)],
            stdout=subprocess.PIPE,
            stderr=subprocess.DEVNULL,
            env={**os.environ, "TMPDIR": left.name},
        )
        with run:
            proxy = int(run.stdout.readline())
            if to_parent is not None:
                run.send_signal(to_parent)
            run.wait(PATIENCE)
        self.is_gone(proxy, f"{act}, {to_parent}")

    def test_an_exception_ends_it(self):
        self.ends_with("raise ValueError")

    def test_sys_exit_ends_it(self):
        self.ends_with("sys.exit(3)")

    def test_a_keyboard_interrupt_ends_it(self):
        self.ends_with("time.sleep(60)", signal.SIGINT)

    def test_a_time_out_ends_it(self):
        self.ends_with("signal.alarm(1); time.sleep(60)")

    def test_an_exit_without_the_with_statement_ends_it(self):
        self.ends_with("os._exit(1)")

    def test_the_death_of_the_parent_ends_it(self):
        self.ends_with("time.sleep(60)", signal.SIGKILL)

    def test_the_death_of_the_parent_ends_it_whatever_child_lives_on(self):
        for how in ("thread", "asyncio"):
            with tempfile.TemporaryDirectory() as left:
                environment = {**os.environ, "TMPDIR": left}
                with subprocess.Popen([sys.executable, "-c", PARENT, how], stdout=subprocess.PIPE, env=environment) as run:
                    proxy, *others = map(int, run.stdout.readline().split())
                    try:
                        run.kill()
                        run.wait(PATIENCE)
                        self.is_gone(proxy, f"the death of a parent that started it by {how}")
                        self.assertTrue(all(map(lives, others)))
                    finally:
                        for other in others:
                            os.kill(other, signal.SIGKILL)

    def is_gone(self, proxy, what):
        """Waits until a process is gone."""
        end = time.monotonic() + PATIENCE
        while lives(proxy):
            self.assertLess(time.monotonic(), end, f"the proxy lives on after {what}")
            time.sleep(0.01)

    def test_sigterm_to_the_parent_ends_it(self):
        self.ends_with("time.sleep(60)", signal.SIGTERM)

    def test_a_toxi_that_is_stopped_twice(self):
        with Toxi(NOWHERE) as toxi:
            toxi.stop()
            self.assertEqual([total.links for total in toxi.totals()], [0])
        self.assertRaises(ToxiError, toxi.start)

    def test_a_program_that_was_killed_is_an_error(self):
        with self.assertRaises(ToxiEnded):
            with Toxi(NOWHERE) as toxi:
                os.kill(toxi._process._child.pid, signal.SIGKILL)
                with self.assertRaises(ToxiEnded):
                    toxi.wait_for_link("shop", 1, PATIENCE)

    def test_its_own_folder_goes_away(self):
        with Toxi(NOWHERE) as toxi:
            folder = os.path.dirname(toxi.command[toxi.command.index("--config") + 1])
            self.assertTrue(os.path.isdir(folder))
        self.assertFalse(os.path.exists(folder))

    def test_a_folder_that_is_given_stays(self):
        with tempfile.TemporaryDirectory() as folder:
            with Toxi(NOWHERE, directory=folder):
                pass
            self.assertEqual(sorted(os.listdir(folder)), ["proxies.json", "script.toml"])

    def test_a_program_that_never_listens(self):
        with tempfile.TemporaryDirectory() as folder:
            program = os.path.join(folder, "toxi")
            with open(program, "w") as file:
                file.write("#!/bin/sh\nexec sleep 2\n")
            os.chmod(program, 0o755)
            with self.assertRaisesRegex(ToxiError, "doesn't listen within 0.2 s"):
                Toxi(NOWHERE, program=program, start_timeout=0.2).start()

    def test_no_program(self):
        with self.assertRaisesRegex(ToxiError, "/nowhere/toxi can't be started"):
            Toxi(NOWHERE, program="/nowhere/toxi").start()

    def test_a_program_of_another_machine(self):
        with tempfile.TemporaryDirectory() as folder:
            program = os.path.join(folder, "toxi")
            with open(program, "w") as file:
                file.write("no program")
            os.chmod(program, 0o755)
            with self.assertRaisesRegex(ToxiError, f"^{program} can't be started: Exec format error$"):
                Toxi(NOWHERE, program=program).start()
            with self.assertRaisesRegex(ToxiError, f"^{program} can't be started: Exec format error$"):
                asyncio.run(AsyncToxi(NOWHERE, program=program).start())

    def test_a_signal_while_it_starts_ends_it(self):
        """The signal is held back then. It is ended before this is told, since its files are removed next."""
        popen, started = subprocess.Popen, []

        def interrupted(*words, **options):
            started.append(popen(*words, **options))
            signal.pthread_kill(threading.get_ident(), signal.SIGINT)
            return started[0]

        with sigint_heeded(), mock.patch("subprocess.Popen", interrupted):
            try:
                Process(["sleep", "30"], [], [])
            except KeyboardInterrupt:
                self.assertEqual(started[0].returncode, -signal.SIGKILL)
            else:
                self.fail("no signal was told")

    def test_times_are_seconds(self):
        for wrong in (None, "5", True, math.nan, -1):
            with self.assertRaisesRegex((TypeError, ValueError), "^start_timeout is a number of seconds, not "):
                Toxi(NOWHERE, start_timeout=wrong)
        with Toxi(NOWHERE, start_timeout=math.inf) as toxi:
            for wrong in (None, "5", math.nan):
                with self.assertRaisesRegex((TypeError, ValueError), "^timeout is a number of seconds, not "):
                    toxi.wait_for_link("shop", 1, timeout=wrong)
                with self.assertRaisesRegex((TypeError, ValueError), "^timeout is a number of seconds, not "):
                    toxi.wait(timeout=wrong)

    def test_a_seed_is_a_whole_number(self):
        for wrong in ("5", 1.0, True, -1, 2**64):
            with self.assertRaisesRegex((TypeError, ValueError), "^seed is a whole number"):
                Toxi(NOWHERE, seed=wrong)
        with Toxi(NOWHERE, seed=2**64 - 1) as toxi:
            with self.assertRaisesRegex(ValueError, "^seed is a whole number"):
                toxi.restart(seed=-1)


class FaultTests(unittest.TestCase):
    def fault(self, proxies, rules):
        with self.assertRaises(ToxiFault) as caught:
            Toxi(proxies, rules).start()
        return caught.exception

    def test_a_rule_names_its_place(self):
        rules = [Rule("shop", last=2), Rule("shop", [Latency(latency=1), Slicer(average_size=4, size_variation=4)])]
        fault = self.fault(NOWHERE, rules)
        self.assertEqual((fault.line, fault.code), ("S6 Variation 2 2", "S6"))
        self.assertIn("toxic 2 of rule 2: Slicer(", str(fault))

    def test_a_fault_is_explained(self):
        fault = self.fault(NOWHERE, [Rule("shop", [Latency(latency=4_000_000)])])
        self.assertEqual(fault.explanation[-1], "latency is in whole milliseconds, 0 to 3600000")
        self.assertTrue(str(fault).endswith(f"\n  {fault.explanation[-1]}"))

    def test_a_rule_itself(self):
        self.assertIn("rule 1: Rule(", self.fault(NOWHERE, [Rule("shop", first=3, last=2)]).place)

    def test_a_script_names_its_line(self):
        text = "version = 2\n[[rule]]\nproxy = 'shop'\nfirst = 1\n\n[[rule.toxic]]\ntype = 'noop'\n"
        fault = self.fault(NOWHERE, text)
        self.assertEqual((fault.line, fault.place), ("S3 UnknownType 1 1", "toxic 1 of rule 1: line 6 of the script"))

    def test_a_script_that_is_no_toml(self):
        self.assertEqual(self.fault(NOWHERE, "[[").line, "S1 NotToml")

    def test_populate_files(self):
        self.assertEqual(self.fault("[{}]", "").line, "C4 Name 0")
        self.assertEqual(self.fault({"shop": "nowhere"}, "").code, "C6")
        with Toxi(NOWHERE) as toxi:
            taken = str(toxi.address("shop"))
            self.assertEqual(self.fault([Proxy("mail", "localhost:1", listen=taken)], []).line, "P4 ListenRefused mail")

    def test_a_pick_of_no_proxy(self):
        with Toxi(NOWHERE) as toxi, self.assertRaises(ToxiFault) as caught:
            toxi.pick("mail", 1)
        self.assertEqual(caught.exception.line, "P3 UnknownProxy mail")


class TextTests(unittest.TestCase):
    def test_names_of_all_kinds(self):
        names = ("a b", 'quo"te\\', "new\nline", "ünï\U0001f600", "\x7f", "[[rule]]", "shop 3")
        proxies = [Proxy(name, "127.0.0.1:1") for name in names] + [Proxy("off", "127.0.0.1:1", enabled=False)]
        toxic = Latency(latency=1, name="slow one", stream="upstream", toxicity="0.25")
        with Toxi(proxies, [Rule(name, [toxic]) for name in names]) as toxi:
            self.assertEqual(len({toxi.address(name) for name in names}), len(names))
            for name in names:
                (picked,) = toxi.pick(name, 1, "upstream")
                self.assertEqual((picked.name, picked.stream, picked.type), ("slow one", "upstream", "latency"))
                self.assertEqual(picked.attributes, {"latency": 1, "jitter": 0, "toxicity": 250})
        self.assertEqual([total.links for total in toxi.totals()], [0] * len(names))

    def test_lines(self):
        link = Link("a 1 up 2", 3, 4, "closed", 5, "reset")
        self.assertEqual(parse(str(link)), link)
        self.assertEqual(str(parse("listening a b [::1]:80")[1]), "[::1]:80")
        self.assertIsNone(parse("link a"))

    def test_no_enabled_proxy(self):
        with Toxi([Proxy("shop", "127.0.0.1:1", enabled=False)]) as toxi:
            self.assertEqual(toxi.lines(), [])
