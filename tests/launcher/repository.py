"""A repository of a small source for tests of ./toxi, over a kit that stands in for `rt`."""
import os
import shutil
import signal
import subprocess
import tempfile
import time
import unittest

HERE = os.path.dirname(os.path.abspath(__file__))
ROOT = os.path.dirname(os.path.dirname(HERE))
PATIENCE = 20
COMPILING = "toxi: compiling without proofs, a minute or two\n"
CHECKED = "toxi: checked build: ten to a hundred times slower, not for load; `./build` makes the proved program\n"
MACHINE = os.uname().machine
NAME = f"toxi-1.2.3-{MACHINE}-linux"
# A script that starts the tests by `&` has SIGINT ignored, and `nohup` SIGHUP, which what they start would inherit.
signal.signal(signal.SIGINT, signal.default_int_handler)
signal.signal(signal.SIGHUP, signal.SIG_DFL)


class Repository(unittest.TestCase):
    """A repository of a small source, and folders that must stay empty."""

    def setUp(self):
        self.folder = os.path.realpath(tempfile.mkdtemp())
        self.addCleanup(shutil.rmtree, self.folder)
        self.root = os.path.join(self.folder, "a = repository")
        self.kit = os.path.join(self.folder, "kit")
        for name in ("kit", "home", "tmp"):
            os.mkdir(os.path.join(self.folder, name))
        self.write("crates/toxi/src/main.rt", "fn main() {}\n")
        self.write("crates.txt", "toxi:\n")
        shutil.copy(os.path.join(ROOT, "toxi"), self.root)
        shutil.copytree(os.path.join(ROOT, "launcher"), os.path.join(self.root, "launcher"))
        self.environment = {
            "PATH": os.path.join(HERE, "kit") + ":" + os.environ["PATH"],
            "KIT": self.kit,
            "HOME": os.path.join(self.folder, "home"),
            "TMPDIR": os.path.join(self.folder, "tmp"),
        }

    def tearDown(self):
        self.assertEqual(self.kept("scratch"), [], "a compile has left something")
        for name in ("home", "tmp"):
            self.assertEqual(os.listdir(os.path.join(self.folder, name)), [], f"something is left in {name}")
        self.until(lambda: not self.processes(), "a process is left")

    def write(self, name, text):
        path = os.path.join(self.root, name)
        os.makedirs(os.path.dirname(path), exist_ok=True)
        with open(path, "w") as file:
            file.write(text)
        return path

    def kit_has(self, name):
        with open(os.path.join(self.kit, name), "w"):
            pass

    def compiles(self):
        try:
            with open(os.path.join(self.kit, "compiles")) as file:
                return len(file.readlines())
        except FileNotFoundError:
            return 0

    def kept(self, kind):
        try:
            names = os.listdir(os.path.join(self.root, "out", "unproved"))
        except (FileNotFoundError, NotADirectoryError):
            return []
        return [name for name in names if name.startswith(kind)]

    def processes(self):
        """The processes that were started from the folder or work in it."""
        found = []
        for process in filter(str.isdigit, os.listdir("/proc")):
            try:
                with open(f"/proc/{process}/environ", "rb") as file:
                    if self.kit.encode() in file.read():
                        found.append(int(process))
            except OSError:
                pass
        return found

    def until(self, holds, what):
        end = time.monotonic() + PATIENCE
        while not holds():
            self.assertLess(time.monotonic(), end, what)
            time.sleep(0.02)

    def start(self, *words, shell=(), **how):
        streams = {"stdin": subprocess.DEVNULL, "stdout": subprocess.PIPE, "stderr": subprocess.PIPE}
        command = [*shell, os.path.join(self.root, "toxi"), *words]
        return subprocess.Popen(command, env=self.environment, text=True, **{**streams, **how})

    def run_toxi(self, *words, **how):
        """The status of a call, what it printed, and what it said."""
        given = how.pop("given", None)
        with self.start(*words, stdin=subprocess.PIPE, **how) as process:
            printed, said = process.communicate(given, PATIENCE)
            return process.returncode, printed, said

    def begun(self, process):
        self.until(lambda: self.compiles(), "no compile has begun")
        self.assertIsNone(process.poll())
