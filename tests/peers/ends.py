"""The ends of links: an upstream that can go down and come back, and what a client or its server does to a connection."""
import contextlib
import random
import select
import socket
import struct
import time

from .waiting import LIMIT, Failed, check

BLOCK = bytes(range(256)) * 256
MOST = 10_000 * len(BLOCK)
# Bytes of which no part repeats, so that a gap is seen.
APERIODIC = random.Random(1).randbytes(4_000_000)


class Upstream:
    """A listener whose connections the cases take themselves. Its port stays taken while it is down."""

    def __init__(self, host="127.0.0.1"):
        self.host = host
        self.port = 0
        self.bind()
        self.up()

    def __enter__(self):
        return self

    def __exit__(self, *_):
        self.socket.close()

    def bind(self):
        family = socket.AF_INET6 if ":" in self.host else socket.AF_INET
        self.socket = socket.socket(family)
        self.socket.setsockopt(socket.SOL_SOCKET, socket.SO_REUSEADDR, 1)
        self.socket.bind((self.host, self.port))
        self.socket.settimeout(LIMIT)
        self.port = self.socket.getsockname()[1]

    def up(self, queue=4096):
        self.socket.listen(queue)

    def down(self):
        """Refuses connections from now on."""
        self.socket.close()
        self.bind()

    def accept(self):
        server, _ = self.socket.accept()
        server.settimeout(LIMIT)
        return server

    def echo_bytes(self, clients):
        """Sends back the first byte of each connection, until each of these clients has a byte or an end.

        Returns what each one got.
        """
        got = {}
        while len(got) < len(clients):
            waiting = [client for client in clients if client not in got]
            readable, _, _ = select.select([self.socket, *waiting], [], [], LIMIT)
            check(readable, f"not within {LIMIT} s: a byte or an end for {len(waiting)} clients")
            for client in readable:
                if client is not self.socket:
                    got[client] = byte_or_end(client)
            if self.socket in readable:
                with self.accept() as server:
                    server.sendall(server.recv(1))
        return [got[client] for client in clients]


def shut_writing(end):
    end.shutdown(socket.SHUT_WR)


def reset(end):
    """Closes a connection by a reset."""
    end.setsockopt(socket.SOL_SOCKET, socket.SO_LINGER, struct.pack("ii", 1, 0))
    end.close()


def read_count(end, count):
    """Exactly so many bytes."""
    got = b""
    while len(got) < count:
        more = end.recv(count - len(got))
        check(more, f"the connection ended after {len(got)} of {count} bytes")
        got += more
    return got


def read_all(end):
    """All bytes, up to an end that is no reset."""
    return b"".join(iter(lambda: end.recv(65536), b""))


def read_until_gone(end):
    """All bytes, up to an end or a reset."""
    heard = b""
    with contextlib.suppress(ConnectionResetError):
        while more := end.recv(65536):
            heard += more
    return heard


def byte_or_end(end):
    """The next byte, or none where the connection has ended or was reset."""
    try:
        return end.recv(1)
    except ConnectionResetError:
        return b""


def has_ended(end):
    check(byte_or_end(end) == b"", "a byte came where the connection should have ended")


def is_reset(end):
    """Reads on. The connection was reset, with no end before. Returns what came before the reset."""
    heard = b""
    try:
        while more := end.recv(65536):
            heard += more
    except ConnectionResetError:
        return heard
    raise Failed("an end came where a reset should come")


def are_quiet(*ends):
    """Neither a byte nor an end comes for a short time."""
    readable, _, _ = select.select(ends, [], [], 0.1)
    check(not readable, "a byte or an end came where nothing should come")


def send_more(end):
    """Sends some bytes to a connection that may be gone."""
    send_if_taken(end, b"more")


def send_if_taken(end, said):
    """Sends bytes to a connection that may go in the meantime."""
    with contextlib.suppress(ConnectionResetError, BrokenPipeError):
        end.sendall(said)


def flood(sender, reader, seconds):
    """Sends as much as there is room for, and reads what comes of it."""
    sender.setblocking(False)
    reader.setblocking(False)
    ends = time.monotonic() + seconds
    while time.monotonic() < ends:
        with contextlib.suppress(BlockingIOError):
            sender.send(BLOCK)
        with contextlib.suppress(BlockingIOError):
            reader.recv(65536)


def send_until_ended(end):
    """Sends until the other side has ended or is gone, which a reader is told at once. The other side sends no byte."""
    end.setblocking(False)
    sent = 0
    while sent < MOST:
        readable, writable, _ = select.select([end], [end], [], LIMIT)
        check(readable or writable, f"not within {LIMIT} s: the end of a connection that is sent to")
        if readable:
            return has_ended(end)
        with contextlib.suppress(BlockingIOError, ConnectionResetError, BrokenPipeError):
            sent += end.send(BLOCK)
    raise Failed(f"{sent} bytes were taken by a connection that should be gone")


def send_until_refused(end):
    """Sends until the connection is gone, and reads nothing."""
    end.settimeout(LIMIT)
    with contextlib.suppress(ConnectionResetError, BrokenPipeError):
        for _ in range(MOST // len(BLOCK)):
            end.sendall(BLOCK)
        raise Failed("a connection that should be gone takes bytes")


def send_until_told(end, reader=None):
    """Sends as long as the connection lives, and lets the reader, if there is one, read a little each 5 ms.

    Returns how many bytes the system took.
    """
    end.setblocking(False)
    sent = 0
    ends = time.monotonic() + LIMIT
    while time.monotonic() < ends:
        readable, writable, _ = select.select([end], [end], [], 0.005)
        try:
            if reader and sent:
                reader.recv(1000)
            if readable:
                has_ended(end)
                return sent
            sent += end.send(BLOCK) if writable else 0
        except (ConnectionResetError, BrokenPipeError):
            return sent
    raise Failed(f"not within {LIMIT} s: the end of a connection that is sent to")


def send_until_full(end):
    """Sends until 20 looks in turn, 25 ms apart, find no room. Returns how many bytes the system took."""
    end.setblocking(False)
    sent = 0
    looks = 0
    while looks < 20:
        _, writable, _ = select.select([], [end], [], 0.025)
        looks = 0 if writable else looks + 1
        with contextlib.suppress(BlockingIOError):
            sent += end.send(BLOCK)
        check(sent < MOST, f"{sent} bytes were taken, and nobody reads them")
    return sent
