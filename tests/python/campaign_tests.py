"""docs/CAMPAIGNS.md: each command runs as it is written, and the files for a CI have the same ones. Needs Hypothesis; a cluster needs Dask, and YAML PyYAML."""
import contextlib
import importlib.util
import os
import re
import shlex
import shutil
import signal
import socket
import subprocess
import sys
import tempfile
import unittest
import xml.dom.minidom
from pathlib import Path

ROOT = Path(__file__).resolve().parent.parent.parent
DOCUMENT = ROOT / "docs" / "CAMPAIGNS.md"
EXAMPLES = ROOT / "examples" / "campaign"
# What a command takes at most on a busy machine, in seconds.
LIMIT = 300
COMMANDS = {"toxi-find": "toxi.find_command", "toxi-sweep": "toxi.sweep_command", "toxi-merge": "toxi.merge_command"}
# The ports that the document names. Here the system chooses others.
PORTS = ("8080", "8786")


def commands_of(section):
    """The commands that a section of the document shows, line by line."""
    text = DOCUMENT.read_text().partition(f"\n## {section}\n")[2].partition("\n## ")[0] if section else DOCUMENT.read_text().partition("\n## ")[0]
    return re.findall(r"^    (\S.*)$", re.sub(r"^```.*?^```$", "", text, flags=re.M | re.S), re.M)


def yaml_of(path, place=None):
    """A YAML file, or the block of a document at a place."""
    import yaml

    text = path.read_text()
    return yaml.safe_load(text if place is None else re.findall(r"^```yaml\n(.*?)^```$", text, re.M | re.S)[place])


def plain(command, **numbers):
    """The words of a command, without where it runs: its folders, and that a found fault lets the step pass."""
    for name, number in numbers.items():
        command = command.replace(name, number)
    command = command.replace("/results/", "").replace("shop:8080", "127.0.0.1:8080").partition("||")[0]
    words = shlex.split(command.replace("page-*.json", "page-1.json page-2.json page-3.json"))
    if "--folder" in words:
        place = words.index("--folder")
        del words[place : place + 2]
    return words


class RunTests(unittest.TestCase):
    """The commands, in a copy of the examples."""

    def setUp(self):
        self.folder = Path(self.enterContext(tempfile.TemporaryDirectory()), "campaign")
        shutil.copytree(EXAMPLES, self.folder)
        programs = Path(self.enterContext(tempfile.TemporaryDirectory()))
        for name, module in {**COMMANDS, "python3": ""}.items():
            (programs / name).write_text(f"#!/bin/sh\nexec {sys.executable} {f'-m {module}' if module else ''} \"$@\"\n")
            (programs / name).chmod(0o755)
        self.environment = {**os.environ, "PATH": f"{programs}:{os.environ['PATH']}"}
        self.environment["PYTHONPATH"] = f"{os.environ['PYTHONPATH']}:{self.folder}"
        self.ports = dict(zip(PORTS, self.enterContext(free_ports(len(PORTS)))))
        self.statuses = [self.status(command) for command in commands_of("")]
        self.wait_for(self.ports["8080"])

    def status(self, command):
        """The status of a command, whose output is in `self.printed`. One that ends with `&` runs on until the test ends."""
        for port, own in self.ports.items():
            command = command.replace(port, own)
        background = command.endswith("&")
        output = subprocess.DEVNULL if background else subprocess.PIPE
        options = {"cwd": self.folder, "env": self.environment, "stdout": output, "stderr": subprocess.DEVNULL, "text": True, "start_new_session": True}
        process = subprocess.Popen(["sh", "-c", f"exec {command.rstrip('& ')}"], **options)
        if background:
            self.addCleanup(process.wait)
            self.addCleanup(os.killpg, process.pid, signal.SIGKILL)
            return 0
        self.printed, _ = process.communicate(timeout=LIMIT)
        return process.returncode

    def wait_for(self, port):
        self.assertEqual(subprocess.run([os.environ["TOXI"], "wait", f"127.0.0.1:{port}", "--within", "60000"], check=False).returncode, 0)

    def ran(self, section):
        """The programs of a section, each with its status."""
        return [(command.split()[0], self.status(command)) for command in commands_of(section)]

    def test_one_laptop(self):
        self.assertEqual(self.ran("One laptop"), [("toxi-find", 1)])

    def test_machines_of_a_ci(self):
        self.assertEqual(self.ran("Machines of a CI"), [("toxi-find", 0), *[("toxi-find", 1)] * 3, ("toxi-merge", 1)])
        self.assertTrue(self.printed.startswith("status 1 in "), self.printed)
        for name in ("page.html", "page.xml"):
            xml.dom.minidom.parse(str(self.folder / name))

    @unittest.skipUnless(importlib.util.find_spec("distributed"), "apt-get install python3-distributed")
    def test_a_cluster(self):
        self.assertEqual(self.ran("A cluster"), [("python3", 0)] * 4)
        self.assertTrue(self.printed.startswith("wrong answer in "), self.printed)

    def test_all_clients_of_a_night(self):
        self.assertEqual(self.ran("All clients of a night"), [("toxi-find", 1), ("toxi-sweep", 0), ("toxi-merge", 1)])
        page = (self.folder / "night.html").read_text()
        self.assertIn("1 of 2 clients are to be mended", page)
        self.assertIn("page, swept", page)


@unittest.skipUnless(importlib.util.find_spec("yaml"), "apt-get install python3-yaml")
class FileTests(unittest.TestCase):
    """No CI has run its file. Its commands are those of the document."""

    def setUp(self):
        record, *shards, merge = map(plain, commands_of("Machines of a CI"))
        self.record, self.shards, self.merge = record, shards, merge

    def test_github(self):
        jobs = yaml_of(DOCUMENT, 0)["jobs"]
        commands = {name: [step["run"] for step in job["steps"] if step.get("run", "").startswith("toxi-")] for name, job in jobs.items()}
        ((record,), (search,), (merge,)) = (commands[name] for name in ("record", "search", "merge"))
        numbers = map(str, jobs["search"]["strategy"]["matrix"]["shard"])
        self.assertEqual((plain(record), plain(merge)), (self.record, self.merge))
        self.assertEqual([plain(search, **{"${{ matrix.shard }}": number}) for number in numbers], self.shards)
        self.assertEqual([jobs[name]["needs"] for name in ("search", "merge")], ["record", "search"])

    def test_gitlab(self):
        jobs = yaml_of(DOCUMENT, 1)
        ((record,), (search,), (merge,)) = (jobs[name]["script"] for name in ("record", "search", "merge"))
        of = jobs["search"]["parallel"]
        self.assertEqual((plain(record), plain(merge)), (self.record, self.merge))
        shards = [plain(search, **{"$CI_NODE_INDEX": str(number), "$CI_NODE_TOTAL": str(of)}) for number in range(1, of + 1)]
        self.assertEqual(shards, self.shards)

    def test_an_indexed_job(self):
        job = yaml_of(EXAMPLES / "job.yaml")["spec"]
        (container,) = job["template"]["spec"]["containers"]
        *shell, command = container["command"]
        self.assertEqual((shell, job["completionMode"]), (["sh", "-c"], "Indexed"))
        for index in range(job["completions"]):
            printed = subprocess.check_output([*shell, f"printf '%s\\n' {command.partition('||')[0]}"], env={"JOB_COMPLETION_INDEX": str(index)}, text=True)
            words = plain(shlex.join(printed.split("\n")[:-1]))
            self.assertEqual([word.replace(f"page-{index}.json", f"page-{index + 1}.json") for word in words], self.shards[index])


@contextlib.contextmanager
def free_ports(count):
    """Ports that nobody listens at."""
    with contextlib.ExitStack() as stack:
        sockets = [stack.enter_context(socket.create_server(("127.0.0.1", 0))) for _ in range(count)]
        ports = [str(each.getsockname()[1]) for each in sockets]
    yield ports


if __name__ == "__main__":
    unittest.main()
