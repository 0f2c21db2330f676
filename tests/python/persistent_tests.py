"""`toxi-find --persistent`: a client whose process stays for many runs. Needs Hypothesis."""
import json
import os
import subprocess
import sys
import tempfile
import unittest
from pathlib import Path

from find_tests import children
from services import Lines, serving
from toxi.outcomes import run_client
from toxi.persistent_client import PersistentClient

# It notes its process for each run. Without a line end behind the size an answer has failed, which 7 says. What it makes of a short body is the test's.
CLIENT = """
import json, os, socket, sys, time

is_broken = breaks = False
print("the client prints this", flush=True)
for line in sys.stdin:
    request = json.loads(line)
    host, _, port = request["proxies"]["shop"].rpartition(":")
    with open(os.environ["NOTES"], "a") as notes:
        notes.write(f"{{os.getpid()}}\\n")
    status = 0
    try:
        with socket.create_connection((host, int(port)), timeout=0.5) as shop:
            shop.sendall(b"hello\\n")
            answer = shop.makefile("rb")
            size = answer.readline()
            body = answer.read(int(size)) if size.endswith(b"\\n") else None
    except OSError:
        body = None
    if body is None:
        status = 7
    elif body != b"hello":
        {short}
    if is_broken:
        status = 1
    is_broken = breaks
    print(f"toxi-answer {{request['run']}} {{status}}", flush=True)
"""


class PersistentTests(unittest.TestCase):
    def setUp(self):
        self.folder = Path(self.enterContext(tempfile.TemporaryDirectory()))
        self.shop = self.enterContext(serving(Lines)).address

    def tearDown(self):
        self.assertEqual(children(), [])

    @property
    def notes(self):
        return (self.folder / "notes").read_text().split()

    def command(self, short):
        (self.folder / "client.py").write_text(CLIENT.format(short=short))
        return [sys.executable, str(self.folder / "client.py")]

    def found(self, short, *words):
        command = [sys.executable, "-m", "toxi.find_command", "--persistent", "--upstream", f"shop={self.shop}", "--within", "1.5", "--budget", "300"]
        environment = {**os.environ, "NOTES": str(self.folder / "notes")}
        words = ("--allow-status", "7", "--runs", "5", *words, "--", *self.command(short))
        return subprocess.run([*command, *words], cwd=self.folder, env=environment, capture_output=True, text=True, check=False)

    def test_a_wrong_status_is_found_by_kept_processes_and_run_again_by_a_fresh_one(self):
        ran = self.found("status = 1", "--jobs", "2", "--max-found", "1", "--fault", "closed")
        self.assertEqual((ran.returncode, ran.stderr), (1, ""))
        self.assertIn("status 1 in 10 of 10 runs", ran.stdout)
        # The first runs and those of shrinking share processes. Repetitions don't.
        self.assertLess(len(set(self.notes)), len(self.notes) - 3)
        self.assertEqual(len(set(self.notes[-10:])), 10)
        environment = {**os.environ, "NOTES": str(self.folder / "notes")}
        again = subprocess.run(["sh", "toxi-found/again.sh"], cwd=self.folder, env=environment, capture_output=True, text=True, check=False)
        self.assertEqual(again.returncode, 1, again.stderr)
        self.assertIn("status 1 under", again.stderr)
        self.assertIn("the client prints this", again.stdout)

    def test_one_that_hangs_is_ended_and_started_anew(self):
        ran = self.found("time.sleep(60)", "--max-found", "1", "--fault", "closed")
        self.assertEqual((ran.returncode, ran.stderr), (1, ""))
        self.assertIn("hang in ", ran.stdout)

    def test_what_only_a_kept_process_shows_is_not_found(self):
        ran = self.found("breaks = True; status = 7", "--fault", "closed")
        self.assertEqual((ran.returncode, ran.stderr), (0, ""))
        self.assertIn("status 1 came, but in no repetition", ran.stdout)

    def test_one_that_ends_without_an_answer_has_a_status(self):
        client = PersistentClient(["sh", "-c", "read request; echo gone >&2; exit 0"])
        outcome = run_client(client, {}, 5, lambda: None)
        self.assertEqual((outcome.answer, outcome.answer.said), (1, "gone"))
        again = run_client(PersistentClient(["sh", "-c", "kill -9 $$"]), {}, 5, lambda: None)
        self.assertEqual(again.answer, 128 + 9)
        client.close()

    def test_a_request_is_a_line_of_json(self):
        with open(self.folder / "notes", "w") as notes:
            client = PersistentClient(["sh", "-c", "while read request; do echo $request >&2; n=$((n + 1)); echo toxi-answer $n 3; done"], notes)
            answers = [run_client(client, {"shop": "127.0.0.1:4"}, 5, lambda: None).answer for _ in range(2)]
            client.close()
        self.assertEqual(answers, [3, 3])
        self.assertEqual(json.loads((self.folder / "notes").read_text().splitlines()[1]), {"run": 2, "proxies": {"shop": "127.0.0.1:4"}})


if __name__ == "__main__":
    unittest.main()
