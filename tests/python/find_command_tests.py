"""The command `toxi-find`, by `python3 -m toxi.find_command`. Needs Hypothesis and bash."""
import os
import pty
import re
import signal
import subprocess
import sys
import tempfile
import time
import unittest
from pathlib import Path

from clients import PATIENCE
from find_tests import children
from plain.terminals import read_all
from services import Lines, serving, sigint_heeded
from toxi.outcomes import run_client
from toxi.shell_client import ShellClient

# It takes what there is of a body for the whole one, and its status 7 says that it has failed.
CUT_BODY = """exec 3<>/dev/tcp/${TOXI_SHOP%:*}/${TOXI_SHOP#*:} || exit 7
echo hello >&3; read -r -t 0.5 size <&3 || exit 7
read -r -t 0.5 -N "$size" body <&3; test -n "$body" || exit 7
echo "$body" >&2; test "$body" = hello"""
CONNECTS = "exec 3<>/dev/tcp/${TOXI_SHOP%:*}/${TOXI_SHOP#*:}"
WAITS = "exec 3<>/dev/tcp/${TOXI_SHOP%:*}/${TOXI_SHOP#*:}; echo hello >&3; read -r -N 7 answer <&3 || exit 7"


# Python ignores what the signal raises there.
FREES = """
import signal, time
from toxi.client_command import take_signals

class Freed:
    def __del__(self):
        signal.raise_signal(signal.SIGTERM)

take_signals()
try:
    Freed()
    time.sleep(30)
except KeyboardInterrupt:
    print("interrupted")
"""


def command_of(process):
    """The words of a process, which may have ended."""
    try:
        return Path(f"/proc/{process}/cmdline").read_bytes()
    except OSError:
        return b""


class FindCommandTests(unittest.TestCase):
    def setUp(self):
        self.folder = self.enterContext(tempfile.TemporaryDirectory())
        self.shop = f"shop={self.enterContext(serving(Lines)).address}"

    def tearDown(self):
        self.assertEqual(children(), [])

    def command(self, *words):
        return [sys.executable, "-m", "toxi.find_command", "--upstream", self.shop, "--within", "1", "--budget", "300", *words]

    def ran(self, *words):
        return subprocess.run(self.command(*words), cwd=self.folder, capture_output=True, text=True, check=False)

    def started(self, terminal, *words):
        try:
            with sigint_heeded():
                return subprocess.Popen(self.command(*words), cwd=self.folder, stdout=subprocess.PIPE, stderr=terminal, text=True)
        finally:
            os.close(terminal)

    def test_a_wrong_status_is_found_and_run_again(self):
        ran = self.ran("--allow-status", "7", "--max-found", "1", "--", "bash", "-c", CUT_BODY)
        self.assertEqual((ran.returncode, ran.stderr), (1, ""))
        lines = ran.stdout.splitlines()
        self.assertRegex(lines[0], r"status 1 in 10 of 10 runs, found and shrunk by \d+ runs in \d+\.\d s")
        self.assertIn("attributes = { bytes = 3 }", lines)
        self.assertEqual(lines[-1], f"sh {self.folder}/toxi-found/again.sh")
        again = subprocess.run(lines[-1], shell=True, capture_output=True, text=True, check=False)
        self.assertEqual(again.returncode, 1)
        self.assertEqual(again.stderr.splitlines(), ["hello", "h", f"status 1 under {self.folder}/toxi-found/script.toml"])

    def test_a_command_that_hangs_is_ended_with_its_group(self):
        mark = f"{self.folder}/left"
        ran = self.ran("--allow-status", "7", "--kind", "timeout", "--", "bash", "-c", f"(sleep 20; touch {mark}) & {WAITS}")
        self.assertEqual(ran.returncode, 1)
        self.assertTrue(ran.stdout.startswith("hang in 10 of 10 runs"), ran.stdout)
        self.assertIn("attributes = { timeout = 0 }", ran.stdout)
        self.assert_gone(mark)

    def test_a_command_that_hangs_is_ended_with_the_other_groups_of_its_session(self):
        """`timeout` makes a process group for what it runs, and bash for its jobs."""
        left = f"sh -c 'sleep 30; touch {self.folder}/left'"
        for command in (f"timeout 40 {left}; exit $?", f"set -m; {left} & {left} & wait"):
            outcome = run_client(ShellClient(["bash", "-c", command]), {}, 0.5, lambda: None)
            self.assertTrue(outcome.hung and outcome.returned)
            self.assert_gone(f"{self.folder}/left")

    def assert_gone(self, mark):
        """No process has a mark in its command."""
        end = time.monotonic() + 10 * PATIENCE
        while any(mark.encode() in words for words in map(command_of, filter(str.isdigit, os.listdir("/proc")))):
            self.assertLess(time.monotonic(), end)
            time.sleep(0.05)

    def test_nothing_found(self):
        ran = self.ran("--runs", "5", "--allow-status", "1", "--", "bash", "-c", CONNECTS)
        self.assertEqual((ran.returncode, ran.stderr), (0, ""))
        self.assertRegex(ran.stdout, r"^nothing found by \d+ runs in \d+\.\d s\n$")
        count = "n=$(cat n); echo $((n + 1)) > n; test $n -lt 30 -o $n -gt 32 || exit 5"
        Path(self.folder, "n").write_text("0")
        ran = self.ran("--allow-status", "1", "--", "bash", "-c", f"{CONNECTS}; {count}")
        self.assertEqual((ran.returncode, ran.stderr), (0, ""))
        self.assertRegex(ran.stdout, r"^nothing found by \d+ runs in \d+\.\d s: status 5 came, but in no repetition\n$")
        ran = self.ran("--budget", "0.5", "--runs", "5000", "--allow-status", "1", "--", "bash", "-c", CONNECTS)
        self.assertEqual((ran.returncode, ran.stderr), (0, ""))
        self.assertRegex(ran.stdout, r"^nothing found by \d+ runs: the budget of 0\.5 s was used up; phases done: [a-z, ]+\n$")

    def test_what_can_not_be_searched_is_told(self):
        for words, told in (
            (
                ("--", "false", "a b"),
                f"toxi-find: the command doesn't succeed without a fault: status 1\nWithout Toxi: {self.shop.replace('shop', 'TOXI_SHOP')} false 'a b'\n",
            ),
            (("--", "no-such-command"), "toxi-find: no-such-command isn't there, or can't be run\n"),
            (("--", "true"), "toxi-find: the client makes no connection to its proxies\n"),
            (("--folder", "/proc", "--", "true"), "toxi-find: /proc isn't empty\n"),
        ):
            ran = self.ran(*words)
            self.assertEqual((ran.returncode, ran.stderr), (2, told))
        for words in ((), ("--runs", "0", "--", "true"), ("--upstream", "a", "--", "true"), ("--upstream", self.shop, "--", "true")):
            ran = self.ran(*words)
            self.assertEqual((ran.returncode, ran.stdout), (2, ""))
            self.assertTrue(ran.stderr.startswith("usage: toxi-find "), ran.stderr)

    def test_it_can_be_stopped(self):
        """On a terminal, so that its progress tells when it has begun."""
        for number in (signal.SIGINT, signal.SIGTERM):
            shown, end = pty.openpty()
            run = self.started(end, "--", "bash", "-c", CONNECTS)
            text = b""
            while b"\r\x1b[K5 runs" not in text:
                text += os.read(shown, 1000)
            run.send_signal(number)
            self.assertEqual(run.communicate(timeout=20)[0], "")
            self.assertEqual(run.returncode, 130)
            self.assertRegex(read_all(shown), r"stopped, nothing found by \d+ runs\n$")
            os.close(shown)

    def test_a_signal_that_comes_while_an_object_is_freed_is_not_lost(self):
        ran = subprocess.run([sys.executable, "-c", FREES], capture_output=True, text=True, check=False)
        self.assertEqual((ran.returncode, ran.stdout, ran.stderr), (0, "interrupted\n", ""))

    def test_a_search_that_is_stopped_hands_over_what_it_has(self):
        shown, end = pty.openpty()
        run = self.started(end, "--allow-status", "7", "--", "bash", "-c", WAITS)
        text = b""
        while not re.search(rb"\d runs, [a-z ]+, hang: shop \d\.\.\d? ", text):
            text += os.read(shown, 1000)
        run.send_signal(signal.SIGINT)
        printed = run.communicate(timeout=20)[0]
        os.close(shown)
        self.assertEqual(run.returncode, 1)
        self.assertRegex(printed, r"^hang in (\d+ of \d+ runs|one run), ")
        self.assertEqual(printed.splitlines()[-1], f"sh {self.folder}/toxi-found/again.sh")
