"""`AsyncToxi` under asyncio: it does what `Toxi` does, and blocks no other task. Needs nothing installed."""
import asyncio
import os
import shlex
import signal
import tempfile
import unittest

from services import Pages, entered, serving
from toxi import AsyncToxi, LimitData, Proxy, ResetPeer, Rule, Toxi, ToxiEnded, ToxiError, ToxiFault, ToxiWarning

PATIENCE = 20
NOWHERE = {"shop": "127.0.0.1:1"}
CUT = [Rule("shop", [LimitData(bytes=0)])]
TICK = 0.01
# A program that goes on once another task of the loop writes into a pipe. It says so if that takes too long.
WAITING = """#!/bin/sh
timeout 20 sh -c 'read _ < {folder}/pipe' || touch {folder}/blocked
exec {program} "$@"
"""
# A program that finds nothing wrong with rules, and never listens.
SILENT = "#!/bin/sh\n[ $1 = check ] || exec sleep 60\n"


async def fetched(toxi):
    """The bytes that come for a request, without an error."""
    reader, writer = await asyncio.open_connection(*toxi.address("shop"))
    try:
        writer.write(b"GET /10 HTTP/1.0\r\n\r\n")
        return await asyncio.wait_for(reader.read(), PATIENCE)
    finally:
        writer.close()


def lives(process):
    """Whether a process is there."""
    return os.path.exists(f"/proc/{process}/exe")


class AsyncTests(unittest.IsolatedAsyncioTestCase):
    def setUp(self):
        self.upstream = {"shop": entered(self, serving(Pages)).address}

    async def test_a_link_and_its_end(self):
        async with AsyncToxi(self.upstream, CUT, seed=7) as toxi:
            self.assertEqual(await fetched(toxi), b"")
            link = await toxi.wait_for_link("shop", 1, PATIENCE)
            self.assertEqual((link, link.down_end, toxi.seed), (toxi.links("shop")[0], "closed", 7))
            with self.assertRaises(TimeoutError):
                await toxi.wait_for_link("shop", 2, 0.05)
            with self.assertRaises(KeyError):
                await toxi.wait_for_link("shpo", 1, PATIENCE)
            (picked,) = await toxi.pick("shop", 1, "downstream")
            self.assertEqual((picked.type, picked.applied), ("limit_data", True))
            self.assertEqual(toxi.url(), f"http://{toxi.address()}")
        self.assertEqual([total.links for total in toxi.totals()], [1])
        with self.assertRaises(ToxiEnded):
            await toxi.wait_for_link("shop", 2, PATIENCE)

    async def test_a_wait_of_toxi_says_that_it_holds_up_the_loop(self):
        with Toxi(self.upstream) as toxi:
            with self.assertRaisesRegex(TimeoutError, "await asyncio.to_thread"):
                toxi.wait_for_link("shop", 1, 0.05)
            with self.assertRaises(TimeoutError) as caught:
                await asyncio.to_thread(toxi.wait_for_link, "shop", 1, 0.05)
            self.assertNotIn("asyncio", str(caught.exception))

    async def test_restart_down_and_up(self):
        async with AsyncToxi(self.upstream, CUT) as toxi:
            address = toxi.address()
            await toxi.restart(rules=[], seed=8)
            self.assertIn(b"x" * 10, await fetched(toxi))
            await toxi.down()
            with self.assertRaises(ConnectionRefusedError):
                await fetched(toxi)
            await toxi.up()
            self.assertIn(b"x" * 10, await fetched(toxi))
            self.assertEqual((toxi.address(), toxi.seed, (await toxi.wait_for_link("shop", 1, PATIENCE)).number), (address, 8, 1))

    async def test_many_at_once(self):
        """Each with its own process, and the signals of the tests stay as they were."""
        mask = signal.pthread_sigmask(signal.SIG_BLOCK, [])
        many = [AsyncToxi(self.upstream) for _ in range(8)]
        await asyncio.gather(*(toxi.start() for toxi in many))
        self.assertEqual(signal.pthread_sigmask(signal.SIG_BLOCK, []), mask)
        answers = await asyncio.gather(*map(fetched, many))
        self.assertEqual(len({toxi.address() for toxi in many}), len(many))
        await asyncio.gather(*(toxi.stop() for toxi in many))
        self.assertTrue(all(b"x" * 10 in answer for answer in answers))
        self.assertEqual([total.links for toxi in many for total in toxi.totals()], [1] * len(many))

    async def test_nothing_blocks_the_loop(self):
        released = 0

        async def release(pipe):
            nonlocal released
            while True:
                try:
                    writer = os.open(pipe, os.O_WRONLY | os.O_NONBLOCK)
                except OSError:
                    # No program waits.
                    await asyncio.sleep(TICK)
                    continue
                os.write(writer, b"\n")
                os.close(writer)
                released += 1
                await asyncio.sleep(TICK)

        with tempfile.TemporaryDirectory() as folder:
            program = os.path.join(folder, "toxi")
            with open(program, "w") as file:
                file.write(WAITING.format(folder=shlex.quote(folder), program=shlex.quote(os.environ["TOXI"])))
            os.chmod(program, 0o755)
            os.mkfifo(os.path.join(folder, "pipe"))
            self.enter_environment(TOXI=program)
            task = asyncio.create_task(release(os.path.join(folder, "pipe")))
            async with AsyncToxi(self.upstream, CUT, log=os.path.join(folder, "logs")) as toxi:
                await toxi.restart()
                await toxi.pick("shop", 1, "upstream")
                waits = asyncio.create_task(toxi.wait_for_link("shop", 1, PATIENCE))
                await asyncio.sleep(TICK)
                self.assertEqual(await fetched(toxi), b"")
                self.assertEqual((await waits).down_end, "closed")
                await toxi.page()
            task.cancel()
            self.assertFalse(os.path.exists(os.path.join(folder, "blocked")))
            # Its version, two checks, two starts, a pick and a page.
            self.assertGreaterEqual(released, 7)

    def enter_environment(self, **changed):
        before = dict(os.environ)
        os.environ.update(changed)
        self.addCleanup(os.environ.update, before)

    async def test_links_end_it(self):
        async with AsyncToxi(self.upstream, links=1) as toxi:
            with self.assertRaises(TimeoutError):
                await toxi.wait(0.05)
            await fetched(toxi)
            (total,) = await toxi.wait(PATIENCE)
        self.assertEqual(total.links, 1)

    async def test_what_is_wrong(self):
        for rules, error in ((CUT + [Rule("shpo")], ToxiError), ([Rule("shop", first=2, last=1)], ToxiFault)):
            with self.assertRaises(error):
                await AsyncToxi(NOWHERE, rules).start()
        with self.assertWarns(ToxiWarning) as caught:
            async with AsyncToxi(NOWHERE, [Rule("shop"), Rule("shop", [ResetPeer(timeout=1)])]):
                pass
        self.assertEqual(caught.filename, __file__)
        async with AsyncToxi(NOWHERE) as toxi:
            with self.assertRaises(ToxiError):
                await toxi.start()
            with self.assertRaises(ToxiFault):
                await AsyncToxi([Proxy("shop", "127.0.0.1:1", str(toxi.address()))]).start()
        with self.assertRaisesRegex(ToxiError, "it was stopped"):
            await toxi.restart()

    async def test_a_cancelled_start_and_an_exception_leave_nothing(self):
        folder = tempfile.TemporaryDirectory()
        self.addCleanup(folder.cleanup)
        program = os.path.join(folder.name, "toxi")
        with open(program, "w") as file:
            file.write(SILENT)
        os.chmod(program, 0o755)
        toxi = AsyncToxi(NOWHERE, program=program)
        task = asyncio.create_task(toxi.start())
        while toxi._process is None and not task.done():
            await asyncio.sleep(0)
        process = toxi._running()._child.pid
        task.cancel()
        with self.assertRaises(asyncio.CancelledError):
            await task
        self.assertFalse(lives(process))
        with self.assertRaises(ZeroDivisionError):
            async with AsyncToxi(NOWHERE) as toxi:
                process = toxi._running()._child.pid
                1 / 0
        self.assertFalse(lives(process))

    async def test_a_program_that_was_killed_is_an_error(self):
        with self.assertRaisesRegex(ToxiEnded, "status -9"):
            async with AsyncToxi(NOWHERE) as toxi:
                os.kill(toxi._running()._child.pid, signal.SIGKILL)
                with self.assertRaises(ToxiEnded):
                    await toxi.wait_for_link("shop", 1, PATIENCE)
