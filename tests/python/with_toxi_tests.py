"""`examples/with-toxi`: a command behind a proxy, its status and its signals."""
import json
import os
import signal
import subprocess
import tempfile
import time
import unittest

from services import Pages, serving

ROOT = os.path.dirname(os.path.dirname(os.path.dirname(os.path.abspath(__file__))))
WITH_TOXI = os.path.join(ROOT, "examples", "with-toxi")
PATIENCE = 20
CUT = "[[rule]]\nproxy = 'my-shop.1'\nfirst = 1\n[[rule.toxic]]\ntype = 'limit_data'\nattributes = { bytes = 5 }\n"
# Says that it runs, waits for a signal, and says its number.
WAITING = "trap 'echo signal 1; exit 41' HUP; trap 'echo signal 2; exit 42' INT; trap 'echo signal 15; exit 43' TERM; "
WAITING += "echo $PPID; while :; do sleep 0.05; done"
FETCH = "import os, urllib.request as u; print(len(u.urlopen('http://' + os.environ['TOXI_{}'] + '/100').read()))"


def children(process):
    """The processes that this one started."""
    with open(f"/proc/{process}/task/{process}/children") as file:
        return file.read().split()


class WithToxiTests(unittest.TestCase):
    def setUp(self):
        folder = tempfile.TemporaryDirectory()
        self.addCleanup(folder.cleanup)
        self.folder = folder.name
        self.write("empty.toml", "")
        self.write("cut.toml", CUT)

    def write(self, name, text):
        with open(os.path.join(self.folder, name), "w") as file:
            file.write(text)

    def proxies(self, names, upstream="127.0.0.1:1"):
        self.write("p.json", json.dumps([{"name": n, "upstream": upstream, "listen": "127.0.0.1:0"} for n in names]))

    def command(self, *command, script="empty.toml", seed="7", log=()):
        return [WITH_TOXI, "p.json", script, seed, *log, "--", *command]

    def run_it(self, *command, **options):
        return subprocess.run(
            self.command(*command, **options), cwd=self.folder, capture_output=True, text=True, timeout=PATIENCE, check=False
        )

    def test_a_command_that_passes(self):
        with serving(Pages) as server:
            self.proxies(["my-shop.1"], server.address)
            ran = self.run_it("python3", "-c", FETCH.format("MY_SHOP_1"))
        self.assertEqual((ran.returncode, ran.stdout, ran.stderr), (0, "100\n", ""))

    def test_a_command_that_fails(self):
        with serving(Pages) as server:
            self.proxies(["my-shop.1"], server.address)
            ran = self.run_it("python3", "-c", FETCH.format("MY_SHOP_1"), script="cut.toml")
        self.assertEqual((ran.returncode, ran.stdout), (1, ""))
        self.assertRegex(ran.stderr, r"\nseed 7\n")
        self.assertRegex(ran.stderr, r"\nlink my-shop.1 1 up \d+ \w+ down 5 closed\n")
        self.assertRegex(ran.stderr, r"\ntotal my-shop.1 1 up \d+ down 5\n")

    def test_logs(self):
        with serving(Pages) as server:
            self.proxies(["my-shop.1"], server.address)
            ran = self.run_it("python3", "-c", FETCH.format("MY_SHOP_1"), script="cut.toml", log=("--log", "logs"))
        self.assertRegex(ran.stderr, r"\nfind logs -name '\*\.log' \| \S+ replay -\n")
        self.assertEqual(sorted(os.listdir(os.path.join(self.folder, "logs"))), ["@0-1-downstream.log", "@0-1-upstream.log"])
        with open(os.path.join(self.folder, "logs", "@0-1-downstream.log")) as log:
            self.assertRegex(log.read(), r"\Atoxi log 1\nlink my-shop\.1 1 downstream\n[^$]*wrote 0\.\.5 \d+\n(\d+ (piece \d+|end)\n)*\d+ closed \d+\n\Z")

    def test_usage(self):
        for given in ([], ["p.json", "empty.toml", "7"], ["p.json", "empty.toml", "7", "--"], ["p.json", "7", "--", "true"]):
            self.assertEqual(subprocess.run([WITH_TOXI, *given], cwd=self.folder, capture_output=True, check=False).returncode, 2)
        self.assertEqual(self.run_it("true", log=("--log",)).returncode, 2)

    def test_many_proxies_and_spaces(self):
        self.proxies([f"a{number}" for number in range(64)])
        ran = self.run_it("sh", "-c", 'env | grep -c "^TOXI_A[0-9]*=127.0.0.1:[1-9]"; echo "$1"', "sh", "a  b")
        self.assertEqual((ran.returncode, ran.stdout), (0, "64\na  b\n"))

    def test_rules_without_effect_and_for_no_proxy(self):
        self.proxies(["a"])
        self.write("twice.toml", "[[rule]]\nproxy = 'a'\nfirst = 1\n" * 2)
        ran = self.run_it("true", script="twice.toml")
        told = "with-toxi: rule 2 never applies: rule 1 covers its connections, at rule 2: line 4 of the script\n"
        self.assertEqual((ran.returncode, ran.stderr), (0, told))
        ran = self.run_it("true", script="cut.toml")
        self.assertEqual((ran.returncode, ran.stdout), (1, ""))
        self.assertIn("with-toxi: rule 1 never applies: no proxy my-shop.1, at rule 1: line 1 of the script\n", ran.stderr)

    def test_options_of_the_command_are_its_own(self):
        self.proxies(["a"])
        ran = self.run_it("echo", "--", "--log", "x", "-h")
        self.assertEqual((ran.returncode, ran.stdout), (0, "-- --log x -h\n"))

    def test_statuses(self):
        self.proxies(["a"])
        for command, status in (("exit 7", 7), ("kill -9 $$", 137), ("exit 0", 0)):
            self.assertEqual(self.run_it("sh", "-c", command).returncode, status)
        self.assertEqual(self.run_it("/nowhere/command").returncode, 127)
        self.assertEqual(self.run_it("/").returncode, 126)

    def test_signals_are_passed_on_and_nothing_is_left(self):
        self.proxies(["a"])
        for number, status in ((signal.SIGHUP, 41), (signal.SIGINT, 42), (signal.SIGTERM, 43)):
            with subprocess.Popen(
                self.command("sh", "-c", WAITING), cwd=self.folder, stdout=subprocess.PIPE, stderr=subprocess.DEVNULL, text=True
            ) as ran:
                self.assertEqual(int(ran.stdout.readline()), ran.pid)
                started = children(ran.pid)
                self.assertEqual(len(started), 2)
                ran.send_signal(number)
                self.assertEqual(ran.wait(PATIENCE), status)
                self.assertEqual(ran.stdout.read(), f"signal {int(number)}\n")
            self.assertFalse([process for process in started if os.path.exists(f"/proc/{process}")])

    def test_kill_takes_the_proxy_along(self):
        self.proxies(["a"])
        # What it leaves behind goes away with the folder.
        environment = {**os.environ, "TMPDIR": self.folder}
        with subprocess.Popen(self.command("cat"), cwd=self.folder, env=environment, stdin=subprocess.PIPE) as ran:
            end = time.monotonic() + PATIENCE
            while len(children(ran.pid)) < 2:
                self.assertLess(time.monotonic(), end)
                time.sleep(0.01)
            started = children(ran.pid)
            ran.kill()
            ran.wait()
        while any(os.path.exists(f"/proc/{process}/exe") for process in started):
            self.assertLess(time.monotonic(), end)
            time.sleep(0.01)

    def test_what_can_not_be_run(self):
        self.proxies(["a"])
        for script, seed, status, told in (
            ("none.toml", "7", 1, "none.toml can't be read"),
            ("p.json", "7", 1, "S1 NotToml"),
            ("empty.toml", "x", 2, "argument SEED: 'x' is no whole number"),
        ):
            ran = self.run_it("true", script=script, seed=seed)
            self.assertEqual(ran.returncode, status)
            self.assertIn(told, ran.stderr)
        self.proxies(["a.b", "a-b"])
        ran = self.run_it("true")
        self.assertEqual((ran.returncode, ran.stderr), (2, "with-toxi: two proxies have the variable TOXI_A_B\n"))
        for name in ("seed", "Config", "explain"):
            self.proxies([name])
            ran = self.run_it("true")
            self.assertEqual(ran.returncode, 2)
            self.assertIn(f"the variable of '{name}' would be TOXI_{name.upper()}, which Toxi itself reads", ran.stderr)
        ran = subprocess.run([WITH_TOXI, "p.json"], capture_output=True, check=False)
        self.assertEqual(ran.returncode, 2)
