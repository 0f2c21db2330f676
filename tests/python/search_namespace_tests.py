"""A search whose workers are on another network than its scheduler. Needs root, iproute2, Hypothesis and Dask."""
import importlib.util
import json
import os
import shutil
import subprocess
import sys
import tempfile
import unittest
from pathlib import Path

HERE, THERE = (f"toxi-{os.getpid()}-{side}" for side in ("here", "there"))
HERE_ADDRESS, THERE_ADDRESS = "10.213.0.1", "10.213.0.2"
WORKERS = 2
# What a start of Python, or a search, takes at most on a busy machine, in seconds.
LIMIT = 300.0
# The searching process: a service at its own address, and a search by the workers over there.
SEARCHES = f"""
import json, sys, threading
from distributed import Client
from services import Lines, Server
from toxi import Search

with Server(({HERE_ADDRESS!r}, 0), Lines) as server, Client({HERE_ADDRESS!r} + ":8786", timeout=60) as client:
    threading.Thread(target=server.serve_forever, daemon=True).start()
    client.wait_for_workers({WORKERS}, timeout=120)
    places = sorted(client.run(lambda: __import__("socket").if_nameindex()[-1][1]).values())
    upstream = f"{HERE_ADDRESS}:{{server.server_address[1]}}"
    search = Search({{"shop": upstream}}, "search_order_tests:by_bytes", within=60.0, executor=client.get_executor())
    result = search.find(runs=20, budget=250.0, faults=["closed"], stream="downstream", watch=lambda progress: None)
    found = [(each.kind, each.script) for each in result.found]
    print(json.dumps([places, result.ended_by, sorted(found), result.runs]))
    server.shutdown()
"""


@unittest.skipUnless(importlib.util.find_spec("distributed"), "apt-get install python3-distributed")
class NamespaceTests(unittest.TestCase):
    """Two networks that one pair of interfaces joins."""

    @classmethod
    def setUpClass(cls):
        if os.geteuid() or not shutil.which("ip") or subprocess.run(["ip", "netns", "add", HERE], capture_output=True, check=False).returncode:
            raise unittest.SkipTest("no network namespace can be made: that takes root and iproute2")
        cls.addClassCleanup(cls.ip, "netns", "delete", HERE)
        cls.ip("netns", "add", THERE)
        cls.addClassCleanup(cls.ip, "netns", "delete", THERE)
        cls.ip("-n", HERE, "link", "add", "toxi-here", "type", "veth", "peer", "name", "toxi-there", "netns", THERE)
        for name, link, address in ((HERE, "toxi-here", HERE_ADDRESS), (THERE, "toxi-there", THERE_ADDRESS)):
            cls.ip("-n", name, "address", "add", f"{address}/24", "dev", link)
            # Each proxy listens at 127.0.0.1.
            for each in ("lo", link):
                cls.ip("-n", name, "link", "set", each, "up")

    @staticmethod
    def ip(*words):
        subprocess.run(["ip", *words], check=True)

    def setUp(self):
        self.folder = self.enterContext(tempfile.TemporaryDirectory())

    def started(self, name, *words, **options):
        """A process of Python on one of the networks, which ends with the test."""
        command = ["ip", "netns", "exec", name, sys.executable, *words]
        process = subprocess.Popen(command, cwd=self.folder, stdin=subprocess.DEVNULL, stderr=subprocess.DEVNULL, text=True, **options)
        self.addCleanup(process.wait)
        self.addCleanup(process.kill)
        return process

    def test_workers_of_another_network_find_the_same(self):
        quiet = {"stdout": subprocess.DEVNULL}
        self.started(HERE, "-m", "distributed.cli.dask_scheduler", "--host", HERE_ADDRESS, "--port", "8786", "--no-dashboard", **quiet)
        for _ in range(WORKERS):
            words = (f"{HERE_ADDRESS}:8786", "--host", THERE_ADDRESS, "--nthreads", "1", "--no-nanny", "--no-dashboard", "--local-directory", self.folder)
            self.started(THERE, "-m", "distributed.cli.dask_worker", *words, **quiet)
        searching = self.started(HERE, "-c", SEARCHES, stdout=subprocess.PIPE)
        printed, _ = searching.communicate(timeout=LIMIT)
        places, ended_by, found, runs = json.loads(printed)
        self.assertEqual((places, ended_by), (["toxi-there"] * WORKERS, "done"))
        self.assertEqual([kind for kind, _ in found], ["exception KeyError", "wrong answer"])
        self.assertGreater(runs, 20)


if __name__ == "__main__":
    unittest.main()
