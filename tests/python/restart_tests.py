"""`restart`, `down` and `up` of a `Toxi`: addresses stay, links end, numbers begin anew. Needs nothing installed."""
import os
import signal
import socket
import tempfile
import unittest

from services import Pages, entered, serving
from toxi import LimitData, Proxy, ResetPeer, Rule, Toxi, ToxiEnded, ToxiError, ToxiFault
from http_tests import CUT, PATIENCE, get, succeeds

# Both streams end with the first byte on about every second link.
FLAKY = [Rule("shop", [LimitData(bytes=0, toxicity=0.5)])]
TRIES = 12


def refused(address):
    """Whether a connect is refused."""
    try:
        socket.create_connection(address, PATIENCE).close()
    except ConnectionRefusedError:
        return True
    return False


def is_taken(address):
    """Whether no other server gets the port, though it asks for it as servers do."""
    try:
        socket.create_server(address).close()
    except OSError:
        return True
    return False


class RestartTests(unittest.TestCase):
    def setUp(self):
        self.upstream = {"shop": entered(self, serving(Pages)).address}

    def served(self, *given, **options):
        toxi = Toxi(self.upstream, *given, **options)
        toxi.start()
        self.addCleanup(toxi.stop)
        return toxi

    def test_other_rules_at_the_same_address(self):
        toxi = self.served([Rule("shop", [ResetPeer(timeout=0)])])
        address = toxi.address()
        self.assertFalse(succeeds(toxi))
        self.assertEqual(toxi.wait_for_link("shop", 1, PATIENCE).down_end, "reset")
        for rules, works in (([], True), ([Rule("shop", [LimitData(bytes=0)])], False), ("", True)):
            toxi.restart(rules=rules)
            self.assertEqual((toxi.address(), toxi.links()), (address, []))
            self.assertEqual(succeeds(toxi), works)
            self.assertEqual(toxi.wait_for_link("shop", 1, PATIENCE).up_end, "closed")

    def test_another_seed(self):
        toxi = self.served(FLAKY, seed=7)
        seen = [[succeeds(toxi) for _ in range(TRIES)]]
        for seed in (8, 7):
            toxi.restart(seed=seed)
            self.assertEqual(toxi.seed, seed)
            seen.append([succeeds(toxi) for _ in range(TRIES)])
        self.assertEqual(seen[0], seen[2])
        self.assertNotEqual(seen[0], seen[1])

    def test_links_that_live_are_ended(self):
        toxi = self.served()
        for end in (toxi.restart, toxi.down):
            with socket.create_connection(toxi.address(), PATIENCE) as client:
                client.sendall(b"GET")
                end()
                with self.assertRaises(ConnectionResetError):
                    client.recv(1)

    def test_files_logs_and_the_report_of_each_run(self):
        with tempfile.TemporaryDirectory() as folder:
            toxi = self.served(FLAKY, directory=folder, log=os.path.join(folder, "logs"), seed=7)
            get_one = [succeeds(toxi)]
            toxi.wait_for_link("shop", 1, PATIENCE)
            toxi.restart([Rule("shop", [LimitData(bytes=0)])], seed=8)
            get_one.append(succeeds(toxi))
            toxi.wait_for_link("shop", 1, PATIENCE)
            toxi.stop()
            names = ["logs", "logs-2", "proxies-2.json", "proxies.json", "script-2.toml", "script.toml"]
            self.assertEqual(sorted(os.listdir(folder)), names)
            self.assertEqual([log.parent.name for log in toxi.logs()], ["logs-2", "logs-2"])
            self.assertEqual(toxi.page().name, "report-2.html")
            report = toxi.report()
            for line in ("seed 7", "seed 8"):
                self.assertIn(line, report.splitlines())
            self.assertEqual(report.count("link shop 1 "), 2)
            with open(os.path.join(folder, "script.toml")) as first, open(os.path.join(folder, "script-2.toml")) as second:
                self.assertNotEqual(first.read(), second.read())

    def test_wrong_rules_leave_it_running(self):
        toxi = self.served()
        with self.assertRaises(ToxiFault):
            toxi.restart([Rule("shop", first=2, last=1)])
        with self.assertRaises(ToxiError):
            toxi.restart([Rule("shpo")])
        self.assertTrue(succeeds(toxi))
        toxi.restart([Rule("shop", [LimitData(bytes=0)])])
        self.assertFalse(succeeds(toxi))

    def test_down_and_up(self):
        toxi = self.served([Rule("shop", [LimitData(bytes=0)], last=1)])
        address = toxi.address()
        for _ in range(2):
            self.assertEqual([succeeds(toxi) for _ in range(2)], [False, True])
            toxi.down()
            toxi.down()
            self.assertTrue(refused(address))
            self.assertTrue(is_taken(address))
            toxi.up()
            toxi.up()
            self.assertEqual(toxi.address(), address)
        self.assertRaises(CUT, get, toxi, 1)
        self.assertEqual(get(toxi, 10), b"x" * 10)
        toxi.down()
        toxi.stop()
        self.assertFalse(is_taken(address))

    def test_what_waits_while_it_is_down(self):
        toxi = self.served()
        toxi.down()
        with self.assertRaises(ToxiEnded):
            toxi.wait_for_link("shop", 1, PATIENCE)
        toxi.restart(FLAKY)
        self.assertFalse(refused(toxi.address()))

    def test_each_address_is_kept(self):
        (upstream,) = self.upstream.values()
        proxies = [Proxy("a", upstream, "127.0.0.1:0"), Proxy("b\n", upstream, "localhost:0"), Proxy("c", upstream, ":0")]
        proxies.append(Proxy("off", upstream, enabled=False))
        if socket.has_ipv6 and os.path.exists("/proc/net/if_inet6"):
            proxies.append(Proxy("d", upstream, "[::1]:0"))
        with Toxi(proxies) as toxi:
            names = [proxy.name for proxy in proxies if proxy.enabled]
            before = [toxi.address(name) for name in names]
            toxi.down()
            self.assertTrue(all(map(is_taken, before[:2])))
            toxi.up()
            self.assertEqual([toxi.address(name) for name in names], before)
            self.assertFalse(any(map(refused, before)))

    def test_a_port_that_is_gone_is_an_error(self):
        """With `links` the program gives its port up by itself."""
        toxi = self.served(links=1)
        get(toxi, 1)
        toxi.wait(PATIENCE)
        with socket.create_server(toxi.address()):
            for call in (toxi.down, toxi.up):
                self.assertRaisesRegex(ToxiError, f"another process has taken a port of {toxi.address()}", call)
        toxi.up()
        get(toxi, 1)
        self.assertEqual([total.links for total in toxi.wait(PATIENCE)], [1])

    def test_it_must_run(self):
        toxi = Toxi(self.upstream)
        for call in (toxi.restart, toxi.down, toxi.up):
            self.assertRaisesRegex(ToxiError, "it wasn't started", call)
        with toxi:
            os.kill(toxi._process._child.pid, signal.SIGKILL)
            toxi._process.wait(PATIENCE)
            for call in (toxi.restart, toxi.down, toxi.up):
                self.assertRaisesRegex(ToxiEnded, "status -9", call)
            toxi.stop()
        for call in (toxi.restart, toxi.down, toxi.up):
            self.assertRaisesRegex(ToxiError, "it was stopped", call)
