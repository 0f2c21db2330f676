"""A search whose clients run in the workers of an executor. Needs Hypothesis. The tests of Dask need it: `apt-get install python3-distributed`."""
import importlib.util
import itertools
import os
import signal
import socket
import subprocess
import sys
import time
import unittest
import warnings
from unittest import mock
from concurrent.futures import Executor, Future, ProcessPoolExecutor
from multiprocessing import get_context
from pathlib import Path

import clients
from find_tests import Searching, children
from search_order_tests import by_bytes
from toxi import Search, ToxiError, ToxiWarning
from toxi._search.cases import Case
from toxi._search.executed import Job, run_job
from toxi.batches import ClientSetup

WITHIN = 300.0
# A client appends a byte to this file at each call, and ends its worker at the calls of these numbers.
COUNTED = "TOXI_TEST_COUNTED"
ENDS = "TOXI_TEST_ENDS"
SECONDS = 15.0


def pool(workers=3, **options):
    """What makes a pool of processes that share nothing with this one."""
    return lambda: ProcessPoolExecutor(workers, mp_context=get_context("spawn"), **options)


def without_the_program():
    os.environ["TOXI"] = "/nowhere/toxi"


def ends_its_worker(addresses):
    """As `by_bytes`, and now and then its worker is killed."""
    with open(os.environ[COUNTED], "ab") as counted:
        counted.write(b".")
        number = counted.tell()
    if str(number) in os.environ[ENDS].split():
        os.kill(os.getpid(), signal.SIGKILL)
    return by_bytes(addresses)


def only_waits(addresses):
    """It takes 100 ms, whatever comes of a question that has many boundaries to be cut at."""
    begun = time.monotonic()
    try:
        clients.correct(addresses, request=b"x" * 2000 + b"\n")
    except clients.Refused:
        pass
    time.sleep(max(0.0, begun + 0.1 - time.monotonic()))


def raises_in_a_function(addresses):
    if len(clients.cut_body(addresses, 60)) < 5:
        raise KeyError("short")
    return b"hello"


class Silent(Executor):
    """Does so many jobs, and then none."""

    def __init__(self, jobs):
        self.left = jobs

    def submit(self, function, job):
        future = Future()
        if self.left:
            self.left -= 1
            future.set_result(function(job))
        return future


class GoneOnceFound(Executor):
    """Does jobs until a folder is there, as one whose scheduler goes away then."""

    def __init__(self, folder):
        self.folder = folder

    def submit(self, function, job):
        future = Future()
        if not self.folder.exists():
            future.set_result(function(job))
        return future


class Losing(Executor):
    """Loses each third job."""

    count = 0

    def submit(self, function, job):
        future, self.count = Future(), self.count + 1
        if self.count % 3:
            future.set_result(function(job))
        else:
            future.cancel()
            future.set_running_or_notify_cancel()
        return future


class Executing(Searching):
    """Searches of a client by an executor."""

    def tearDown(self):
        """No process is left but the tracker that Python itself starts with the first pool."""
        words = [Path(stat).with_name("cmdline").read_text() for stat in children()]
        self.assertEqual([each for each in words if "resource_tracker" not in each], [])

    def find(self, client, executor, **options):
        search = Search(self.shop, client, within=WITHIN, executor=executor, allowed=(OSError,))
        given = {"runs": 40, "budget": 500.0, "faults": ["closed"], "stream": "downstream", "watch": lambda progress: None, **options}
        return search.find(**given)

    def told(self, result):
        found = [(each.kind, each.script, each.failed, each.repeated, each.runs) for each in result.found]
        return result.ended_by, found, result.flaky, result.tried, result.runs, result.phases


class PoolTests(Executing):
    def counts(self, ends):
        for name, value in ((COUNTED, str(Path(self.folder, "counted"))), (ENDS, ends)):
            self.enterContext(mock.patch.dict(os.environ, {name: value}))

    def test_it_finds_the_same_as_without_one(self):
        right = self.told(self.find(by_bytes, None))
        self.assertEqual((right[0], len(right[1])), ("done", 2))
        self.assertEqual(self.told(self.find("search_order_tests:by_bytes", pool())), right)
        with pool(2)() as executor:
            self.assertEqual(self.told(self.find(by_bytes, executor)), right)

    def test_a_worker_that_is_killed_changes_nothing(self):
        right = self.told(self.find(by_bytes, None))
        self.counts("30 60 61")
        self.assertEqual(self.told(self.find(ends_its_worker, pool())), right)

    def test_workers_that_are_killed_again_and_again_end_it(self):
        self.counts(" ".join(map(str, range(25, 1000))))
        with self.assertRaisesRegex(ToxiError, "^the executor broke 4 times: "):
            self.find(ends_its_worker, pool())
        Path(self.folder, "counted").unlink()
        with pool()() as executor, self.assertRaisesRegex(ToxiError, "^the executor is broken, and no callable makes another one: "):
            self.find(ends_its_worker, executor)

    def test_the_place_of_an_exception_comes_along(self):
        result = self.find(raises_in_a_function, pool(1), max_found=1)
        self.assertRegex(result.found[0].where, r"search_executor_tests\.py:\d+ in raises_in_a_function$")
        self.assertRegex(result.found[0].detail, r'(?s)search_executor_tests\.py", line \d+, in raises_in_a_function.*KeyError: \'short\'$')

    def test_what_can_not_be_run_there_is_told_at_the_start(self):
        for client, executor, told in (
            (lambda addresses: None, pool(), "no other process finds it"),
            ("nowhere:client", pool(), "no client 'nowhere:client'"),
            (by_bytes, pool(initializer=without_the_program), "/nowhere/toxi can't be started"),
        ):
            with self.subTest(told), self.assertRaisesRegex(ToxiError, told):
                self.find(client, executor)
        with self.assertRaisesRegex(ToxiError, "must be pickled for a worker"):
            Search(self.shop, by_bytes, lambda answer: True, within=WITHIN, executor=pool()).find()
        with self.assertRaisesRegex(ValueError, "a sweep has no executor"):
            Search(self.shop, by_bytes, executor=pool()).sweep()
        setup = ClientSetup(self.shop, None, WITHIN, None, 1, {})
        with self.assertRaisesRegex(ToxiError, "no client 'nowhere:client'"):
            run_job(Job("nowhere:client", False, setup, (), None, True))
        with self.assertRaisesRegex(ToxiError, "the worker has the package toxi of version .*, and the search of 0.0.1"):
            run_job(Job("clients:whole", False, setup, (), None, True, "0.0.1"))

    def test_an_executor_that_gives_no_answer_ends_it_with_the_budget(self):
        """As one whose scheduler has gone. Its first two jobs are those without a fault."""
        with mock.patch("toxi._search.pool.RUNS_OF_JOB", 1), self.assertRaisesRegex(ToxiError, "^the executor gives no answer, and the budget is used up$"):
            Search(self.shop, by_bytes, within=4.0, executor=Silent(2)).find(budget=6.0, faults=["closed"])

    def test_what_was_found_is_kept_where_the_executor_goes_away(self):
        folder = Path(self.folder, "found")
        patience = mock.patch("toxi._search.pool.Pool._patience", lambda pool, setup: 2.0)
        with patience, self.assertWarnsRegex(ToxiWarning, "(?s)^ToxiError has ended the search, which had found\nwrong answer: sh .*/found/again.sh$"):
            with self.assertRaisesRegex(ToxiError, "^the executor gives no answer"):
                self.find(by_bytes, GoneOnceFound(folder), folder=folder)
        self.assertTrue((folder / "script.toml").exists())

    def test_an_upstream_that_a_worker_does_not_reach_is_named(self):
        with socket.create_server(("127.0.0.1", 0)) as free:
            absent = f"127.0.0.1:{free.getsockname()[1]}"
        job = Job("clients:whole", False, ClientSetup({"shop": absent}, None, WITHIN, None, 1, {}), (Case(),), None, True)
        with self.assertRaisesRegex(ToxiError, f"^no service answers a worker at {absent}, the upstream 'shop': .*refused"):
            run_job(job)

    def test_jobs_that_are_lost_are_run_again(self):
        right = self.told(self.find(by_bytes, None))
        self.assertEqual(self.told(self.find(by_bytes, Losing())), right)

    def test_four_workers_make_more_runs_than_one(self):
        """A client that only waits: 3.2 times as many, of 4."""
        runs = []
        for workers in (1, 4):
            ended = []
            self.find(only_waits, pool(workers), runs=5000, budget=SECONDS, watch=lambda progress: ended.append((progress.phase, time.monotonic())))
            drawn = [when for phase, when in ended if phase == "drawn"]
            runs.append(len(drawn) / (drawn[-1] - drawn[0]))
        print(f"runs a second: {runs[0]:.1f} by one worker, {runs[1]:.1f} by four")
        self.assertGreater(runs[1], 3.2 * runs[0])


@unittest.skipUnless(importlib.util.find_spec("distributed"), "apt-get install python3-distributed")
class DaskTests(Executing):
    """A scheduler and its workers, each a process of its own."""

    def setUp(self):
        super().setUp()
        self.processes = []
        self.file = str(Path(self.folder, "scheduler.json"))
        self.started("scheduler", "--host", "127.0.0.1", "--port", "0")
        self.workers = [self.worker() for _ in range(4)]

    def started(self, kind, *words):
        command = [sys.executable, "-m", f"distributed.cli.dask_{kind}", "--scheduler-file", self.file, "--no-dashboard", *words]
        process = subprocess.Popen(command, cwd=self.folder, stdout=subprocess.DEVNULL, stderr=subprocess.DEVNULL)
        self.processes.append(process)
        return process

    def tearDown(self):
        for process in self.processes:
            process.kill()
            process.wait()
        super().tearDown()

    def worker(self):
        return self.started("worker", "--nthreads", "1", "--no-nanny")

    def test_a_worker_that_is_killed_and_one_that_is_added(self):
        from distributed import Client

        right = self.told(self.find(by_bytes, None))
        runs = itertools.count()

        def watch(progress):
            number = next(runs)
            if number == 20:
                self.workers[0].kill()
            if number == 40:
                self.worker()

        with warnings.catch_warnings(), Client(scheduler_file=self.file, timeout=60) as client:
            warnings.simplefilter("ignore")
            client.wait_for_workers(4, timeout=60)
            result = self.find(by_bytes, client.get_executor(), watch=watch)
        self.assertEqual(self.told(result), right)


if __name__ == "__main__":
    unittest.main()
