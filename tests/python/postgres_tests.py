"""`examples/hangs.toml` before a real PostgreSQL: the handshake passes, and the query hangs. With Debian's postgresql."""
import contextlib
import functools
import glob
import os
import re
import shutil
import subprocess
import tempfile
import unittest

from services import running

from toxi import Toxi

ROOT = os.path.dirname(os.path.dirname(os.path.dirname(os.path.abspath(__file__))))
PROGRAMS = sorted(glob.glob("/usr/lib/postgresql/*/bin"))[-1]
# PostgreSQL doesn't run as root.
AS_SERVER = {"user": "postgres"} if os.geteuid() == 0 else {}
# Longer than anything here takes on a busy machine, in seconds.
PATIENCE = 60


def ran(name, *arguments):
    return subprocess.run([os.path.join(PROGRAMS, name), *arguments], stdout=subprocess.DEVNULL, check=False, **AS_SERVER).returncode == 0


def server_command(data, port):
    """A server over these files."""
    return [os.path.join(PROGRAMS, "postgres"), "-D", data, "-p", str(port), "-c", "listen_addresses=127.0.0.1", "-c", "unix_socket_directories="]


def answers(port):
    return ran("pg_isready", "-h", "127.0.0.1", "-p", str(port))


@contextlib.contextmanager
def postgres():
    """A server with a new database for as long as the `with` statement. Gives its address."""
    with tempfile.TemporaryDirectory() as data:
        if AS_SERVER:
            shutil.chown(data, AS_SERVER["user"])
        if not ran("initdb", "-D", data, "-U", "postgres", "-A", "trust", "--no-sync"):
            raise RuntimeError("initdb made no database")
        with running(functools.partial(server_command, data), answers, **AS_SERVER) as address:
            yield address


def psql(toxi, *queries, timeout=PATIENCE):
    """What psql prints of some queries over one connection, and whether it ended within so many seconds."""
    host, port = toxi.address()
    command = ["psql", "-XAtq", "-h", host, "-p", str(port), "-U", "postgres", *(word for query in queries for word in ("-c", query))]
    with subprocess.Popen(command, stdout=subprocess.PIPE, text=True) as client:
        try:
            return client.communicate(timeout=timeout)[0], client.returncode == 0
        except subprocess.TimeoutExpired:
            client.kill()
            return client.communicate()[0], False


class PostgresTests(unittest.TestCase):
    @classmethod
    def setUpClass(cls):
        with contextlib.ExitStack() as stack:
            cls.upstream = stack.enter_context(postgres())
            cls.addClassCleanup(stack.pop_all().close)
        with open(os.path.join(ROOT, "examples", "hangs.toml")) as file:
            cls.script = file.read()

    def handshake(self):
        """How many bytes the server sends to psql before the first query."""
        with Toxi({"shop": self.upstream}) as toxi:
            self.assertEqual(psql(toxi, r"\q"), ("", True))
            return toxi.wait_for_link("shop", 1, PATIENCE).down

    def check_hangs(self, script, handshake, workers):
        with Toxi({"shop": self.upstream}, script, workers=workers) as toxi:
            self.assertEqual(psql(toxi, "select 'quick'", "select pg_sleep(2.5)", timeout=5), ("quick\n", False))
            self.assertEqual(toxi.wait_for_link("shop", 1, PATIENCE).down_end, "open")
            self.assertEqual(psql(toxi, r"\q"), ("", True))
            self.assertEqual(psql(toxi, "select 'never'", timeout=2), ("", False))
            link = toxi.wait_for_link("shop", 3, PATIENCE)
            self.assertEqual((link.up_end, link.down, link.down_end), ("closed", handshake, "open"))

    def test_a_handshake_passes_and_a_query_hangs(self):
        handshake = self.handshake()
        # Other versions and locales have handshakes of other lengths.
        script, found = re.subn("after = 415 ", f"after = {handshake} ", self.script)
        self.assertEqual(found, 1)
        for workers in (None, 2):
            with self.subTest(workers=workers):
                self.check_hangs(script, handshake, workers)
