"""Why links are broken: the first of each proxy and reason at once, and then at most one a second with how many more."""
import contextlib
import re
import socket
import struct
import subprocess
import time

PATIENCE = 60
WAYS = ([], ["--workers", "1"])
RESET = struct.pack("ii", 1, 0)


@contextlib.contextmanager
def served(program, upstream, *options):
    """A proxy of this upstream, and its address."""
    command = [program, "serve", "--listen", "127.0.0.1:0", "--upstream", upstream, "--seed", "1", *options]
    with subprocess.Popen(command, stdin=subprocess.DEVNULL, stdout=subprocess.PIPE, stderr=subprocess.PIPE, encoding="utf-8") as child:
        try:
            port = int(child.stdout.readline().rpartition(":")[2])
            yield child, ("127.0.0.1", port)
        finally:
            child.kill()


def connect(address):
    """A client that waits for the end of its link."""
    with socket.create_connection(address, PATIENCE) as client:
        client.recv(1)


def line_of(child, since=None, within=PATIENCE):
    line = child.stderr.readline()
    assert since is None or time.monotonic() - since < within, "it is told late"
    return line.rstrip("\n")


def refused(line):
    """The number of the first link whose upstream refused the connection, and of how many links the line tells."""
    told = re.fullmatch(r"toxi: broken default (\d+): upstream 127\.0\.0\.1:1: connection refused(?:, and (\d+) more)?", line)
    assert told, line
    return int(told[1]), 1 + int(told[2] or 0)


def tells_at_once_and_then_the_number(program, _folder):
    for way in WAYS:
        with served(program, "127.0.0.1:1", *way) as (child, address):
            begun = time.monotonic()
            connect(address)
            assert line_of(child) == "toxi: broken default 1: upstream 127.0.0.1:1: connection refused"
            for _ in range(5):
                connect(address)
            # On a busy machine they take more than a second, and so more than one line.
            lines, links = 1, 1
            while links < 6:
                number, count = refused(line_of(child))
                took = time.monotonic() - begun
                assert number > 1 and took >= lines, (number, took)
                lines += 1
                links += count
            connect(address)
            assert line_of(child) == "toxi: broken default 7: upstream 127.0.0.1:1: connection refused"


def tells_all_at_the_end(program, _folder):
    for way in WAYS:
        with served(program, "127.0.0.1:1", "--links", "4", *way) as (child, address):
            connect(address)
            assert line_of(child) == "toxi: broken default 1: upstream 127.0.0.1:1: connection refused"
            begun = time.monotonic()
            for _ in range(3):
                connect(address)
            child.wait(PATIENCE)
            took = time.monotonic() - begun
            counts = [count for _, count in map(refused, child.stderr.read().splitlines())]
            # The end doesn't wait for the second to pass.
            assert sum(counts) == 3 and len(counts) <= 1 + took, (counts, took)


def tells_a_name_that_is_not_found(program, _folder):
    for way in WAYS:
        with served(program, "nowhere.invalid:80", *way) as (child, address):
            connect(address)
            assert line_of(child) == "toxi: broken default 1: upstream nowhere.invalid:80: name not found"


def tells_the_time_limit(program, _folder):
    for way in WAYS:
        with socket.socket() as server, contextlib.ExitStack() as clients:
            server.bind(("127.0.0.1", 0))
            server.listen(0)
            # The queue is full, so that no more connects are answered.
            for _ in range(3):
                client = clients.enter_context(socket.socket())
                client.setblocking(False)
                client.connect_ex(server.getsockname())
            upstream = "127.0.0.1:%d" % server.getsockname()[1]
            with served(program, upstream, "--connect-timeout", "200", *way) as (child, address):
                connect(address)
                assert line_of(child) == f"toxi: broken default 1: upstream {upstream}: timed out"


def tells_a_write_that_failed(program, _folder):
    for way in WAYS:
        with socket.create_server(("127.0.0.1", 0)) as server:
            upstream = "127.0.0.1:%d" % server.getsockname()[1]
            with served(program, upstream, *way) as (child, address):
                client = socket.create_connection(address, PATIENCE)
                accepted, _ = server.accept()
                with accepted:
                    accepted.sendall(b"x")
                    client.recv(1)
                    client.setsockopt(socket.SOL_SOCKET, socket.SO_LINGER, RESET)
                    client.close()
                    with contextlib.suppress(OSError):
                        for _ in range(1000):
                            accepted.sendall(b"x" * 65536)
                    line = line_of(child)
                    assert line == "toxi: broken default 1: a write failed", line


def tells_nothing_of_a_stop(program, _folder):
    for way in WAYS:
        with socket.create_server(("127.0.0.1", 0)) as server:
            upstream = "127.0.0.1:%d" % server.getsockname()[1]
            command = [program, "serve", "--listen", "127.0.0.1:0", "--upstream", upstream, "--seed", "1", *way]
            with subprocess.Popen(command, stdin=subprocess.DEVNULL, stdout=subprocess.PIPE, stderr=subprocess.PIPE, encoding="utf-8") as child:
                port = int(child.stdout.readline().rpartition(":")[2])
                with socket.create_connection(("127.0.0.1", port), PATIENCE):
                    accepted, _ = server.accept()
                    with accepted:
                        child.terminate()
                        child.wait(PATIENCE)
                assert re.search("broken", child.stdout.read()) and child.stderr.read() == "", "it told of a stop"


CASES = [
    tells_at_once_and_then_the_number,
    tells_all_at_the_end,
    tells_a_name_that_is_not_found,
    tells_the_time_limit,
    tells_a_write_that_failed,
    tells_nothing_of_a_stop,
]
