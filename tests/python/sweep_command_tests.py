"""`toxi-sweep`: a command's table, its status, its files, and how it ends."""
import contextlib
import json
import os
import pty
import shlex
import signal
import subprocess
import sys
import tempfile
import time
import unittest
import xml.dom.minidom
from pathlib import Path

from clients import PATIENCE
from plain.terminals import read_all
from services import Lines, serving, sigint_heeded

SWEEP = [sys.executable, "-m", "toxi.sweep_command"]
LIMIT = 120
# A command that takes a cut body for a whole one, or is correct, or has no time limit.
CLIENT = """
import os, sys
import clients
host, port = os.environ["TOXI_SHOP"].split(":")
try:
    sys.exit(0 if clients.NAME({"shop": (host, int(port))}) == b"hello" else 1)
except OSError:
    sys.exit(3)
"""


class SweepCommandTests(unittest.TestCase):
    def setUp(self):
        self.folder = self.enterContext(tempfile.TemporaryDirectory())
        self.upstream = self.enterContext(serving(Lines)).address

    def command(self, name, *options):
        path = os.path.join(self.folder, f"{name}.py")
        with open(path, "w") as file:
            file.write(CLIENT.replace("NAME", name))
        return [*SWEEP, "--upstream", f"shop={self.upstream}", "--allow-status", "3", *options, "--", sys.executable, path]

    def run_it(self, command):
        return subprocess.run(command, cwd=self.folder, capture_output=True, text=True, timeout=LIMIT, check=False)

    def test_a_bug_its_files_and_its_last_line(self):
        ran = self.run_it(self.command("patient_cut_body", "--fault", "closed", "--jobs", "4", "--json", "table.json", "--page=table.html"))
        lines = ran.stdout.split("\n")[:-1]
        self.assertEqual((ran.returncode, ran.stderr), (1, ""))
        self.assertEqual(lines[0], "shop 1: 6 bytes upstream, 7 downstream")
        self.assertEqual((lines[2], lines[4]), ("downstream 2..6 closed: status 1", "downstream 0..1 closed: status 3"))
        # On a busy machine the answer may come before the close behind the last byte of the request.
        self.assertRegex(lines[3], r"^upstream 0\.\.[56] closed: status 3$")
        with open(os.path.join(self.folder, "table.json")) as file:
            self.assertEqual(json.load(file)["rows"][0]["outcome"], "status 1")
        xml.dom.minidom.parse(os.path.join(self.folder, "table.html"))
        again = self.run_it(shlex.split(lines[-1]))
        self.assertEqual((again.returncode, again.stdout.split("\n")[2]), (1, "downstream 2 closed: status 1"))
        # The run of one point leaves the table of the sweep as it is.
        with open(os.path.join(self.folder, "table.json")) as file:
            self.assertEqual(json.load(file)["rows"][0]["last_offset"], 6)

    def test_a_correct_command(self):
        ran = self.run_it(self.command("correct", "--fault", "closed", "--jobs", "4"))
        self.assertEqual((ran.returncode, ran.stderr), (0, ""))
        self.assertNotIn("wrong", ran.stdout)
        self.assertEqual(ran.stdout.splitlines()[-1], "nothing is to be mended in 19 runs")

    def test_no_time_limit(self):
        ran = self.run_it(self.command("waits", "--fault", "silent", "--jobs", "4", "--within", "2"))
        self.assertEqual(ran.returncode, 1)
        self.assertIn("downstream 0..6 silent: hang, 5 of 7 offsets run\n", ran.stdout)
        self.assert_nothing_is_left()

    def test_ctrl_c_tells_what_there_is_and_leaves_nothing(self):
        for jobs in ("1", "3"):
            runs = Path(self.folder, f"runs by {jobs}")
            before = f"echo >> {shlex.quote(str(runs))}"
            command = self.command("waits", "--fault", "silent", "--within", "60", "--jobs", jobs, "--before", before)
            environment = {**os.environ, "TMPDIR": self.folder}
            with sigint_heeded():
                started = subprocess.Popen(command, env=environment, stdout=subprocess.PIPE, text=True)
            with started as sweep:
                self.wait_for_a_fault(runs)
                sweep.send_signal(signal.SIGINT)
                printed = sweep.communicate(timeout=LIMIT)[0]
            self.assertEqual(sweep.returncode, 130)
            self.assertRegex(printed, r"not run: \d+ of 12 runs: it was interrupted\n")
            self.assert_nothing_is_left()

    def wait_for_a_fault(self, runs):
        """The first that hangs is the last that begins. `runs` has a line for each that has begun."""
        end, seen, since = time.monotonic() + LIMIT, -1, time.monotonic()
        while seen < 3 or time.monotonic() < since + 3:
            self.assertLess(time.monotonic(), end)
            time.sleep(0.05)
            begun = len(runs.read_text()) if runs.exists() else 0
            seen, since = (seen, since) if begun == seen else (begun, time.monotonic())

    def test_an_ignored_signal_stays_ignored(self):
        command = ["nohup", *self.command("waits", "--fault", "silent", "--jobs", "4", "--within", "3")]
        with subprocess.Popen(command, env={**os.environ, "TMPDIR": self.folder}, stdout=subprocess.PIPE, stderr=subprocess.DEVNULL, text=True) as sweep:
            time.sleep(2)
            sweep.send_signal(signal.SIGHUP)
            printed = sweep.communicate(timeout=LIMIT)[0]
        self.assertEqual(sweep.returncode, 1)
        self.assertIn("downstream 0..6 silent: hang, 5 of 7 offsets run\n", printed)

    def assert_nothing_is_left(self):
        """No process of this test's folder lives on: neither a command, nor a `serve`, whose files are in it too."""
        end = time.monotonic() + 10 * PATIENCE
        while [process for process in filter(str.isdigit, os.listdir("/proc")) if self.belongs(process)]:
            self.assertLess(time.monotonic(), end)
            time.sleep(0.05)

    def belongs(self, process):
        with contextlib.suppress(OSError), open(f"/proc/{process}/cmdline", "rb") as command:
            return self.folder.encode() in command.read()
        return False

    def test_progress_on_a_terminal(self):
        shown, end = pty.openpty()
        ran = subprocess.run(self.command("correct", "--fault", "closed", "--most", "4"), stdout=subprocess.DEVNULL, stderr=end, timeout=LIMIT, check=False)
        os.close(end)
        self.assertEqual(ran.returncode, 0)
        self.assertRegex(read_all(shown), r"4 of 4: \d allowed, \d right")
        os.close(shown)

    def test_usage(self):
        for command in (SWEEP, [*SWEEP, "--upstream", "shop=x:1"], [*SWEEP, "--upstream", "shop", "--", "true"], [*SWEEP, "--upstream", "shop=x:1", "--fault", "cut", "--", "true"]):
            self.assertEqual(self.run_it(command).returncode, 2)
        self.assertIn("argument --seed: '-1' is no whole number", self.run_it([*SWEEP, "--upstream", "shop=x:1", "--seed", "-1", "--", "true"]).stderr)
        for told, words in (("there", ["/nowhere/command"]), ("status 1\nWithout Toxi: TOXI_SHOP=", ["false"]), ("makes no connection", ["true"])):
            ran = self.run_it([*SWEEP, "--upstream", f"shop={self.upstream}", "--", *words])
            self.assertEqual((ran.returncode, ran.stdout), (2, ""))
            self.assertRegex(ran.stderr, f"^toxi-sweep: .*{told}")

    def test_a_point_of_no_connection(self):
        ran = self.run_it(self.command("correct", "--only", "shop 2 downstream 1 closed"))
        self.assertEqual((ran.returncode, ran.stderr), (2, "toxi-sweep: the client makes no connection of shop 2 downstream 1 closed, but shop 1\n"))

    def test_what_runs_before_each(self):
        ran = self.run_it(self.command("correct", "--fault", "closed", "--most", "4", "--before", "echo >> runs"))
        self.assertEqual(ran.returncode, 0)
        with open(os.path.join(self.folder, "runs")) as file:
            # Some runs without a fault come first.
            self.assertIn(len(file.readlines()) - 4, range(3, 17))
        ran = self.run_it(self.command("correct", "--before", "exit 4"))
        self.assertEqual((ran.returncode, ran.stderr), (2, "toxi-sweep: the command before each run has the status 4: exit 4\n"))
