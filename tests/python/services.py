"""Services for the tests, on ports that the system chooses."""
import contextlib
import http.server
import signal
import socket
import socketserver
import subprocess
import threading
import time
import unittest
from typing import Any, Callable, Iterator, List, TypeVar

Given = TypeVar("Given")
# How long a program may take until it answers, in seconds, and how often a port is tried.
PATIENCE = 60
PORT_TRIES = 5


class Server(socketserver.ThreadingTCPServer):
    """A server whose clients may vanish. `count` is the number of requests that it took."""

    daemon_threads = True
    request_queue_size = 100
    count = 0

    @property
    def address(self) -> str:
        return f"127.0.0.1:{self.server_address[1]}"

    def handle_error(self, *_: Any) -> None:
        pass


class Lines(socketserver.StreamRequestHandler):
    """Answers each line in one piece: the number of its bytes, a line feed, and its bytes without the line's end."""

    server: Server

    def handle(self) -> None:
        for line in self.rfile:
            self.server.count += 1
            body = line.strip()
            self.wfile.write(b"%d\n" % len(body) + body)


class Pages(http.server.BaseHTTPRequestHandler):
    """Answers `GET /N` with N bytes."""

    server: Server

    def do_GET(self) -> None:
        self.server.count += 1
        size = int(self.path[1:])
        self.send_response(200)
        self.send_header("Content-Length", str(size))
        self.end_headers()
        self.wfile.write(b"x" * size)

    def log_message(self, *_: Any) -> None:
        pass


@contextlib.contextmanager
def sigint_heeded() -> Iterator[None]:
    """Programs that are started meanwhile heed SIGINT. A script that starts the tests by `&` has it ignored, and so would they."""
    before = signal.signal(signal.SIGINT, signal.default_int_handler)
    try:
        yield
    finally:
        signal.signal(signal.SIGINT, before)


@contextlib.contextmanager
def serving(handler: Callable[..., socketserver.BaseRequestHandler]) -> Iterator[Server]:
    """A server for as long as the `with` statement."""
    with Server(("127.0.0.1", 0), handler) as server:
        threading.Thread(target=server.serve_forever, args=(0.01,), daemon=True).start()
        try:
            yield server
        finally:
            server.shutdown()


@contextlib.contextmanager
def running(command: Callable[[int], List[str]], answers: Callable[[int], bool], **how: Any) -> Iterator[str]:
    """A program that serves on a port, for as long as the `with` statement. Gives its address.

    Another process may take a free port before the program does, so it is tried again.
    """
    for _ in range(PORT_TRIES):
        with socket.create_server(("127.0.0.1", 0)) as free:
            port: int = free.getsockname()[1]
        with subprocess.Popen(command(port), stdout=subprocess.DEVNULL, stderr=subprocess.DEVNULL, **how) as program:
            try:
                end = time.monotonic() + PATIENCE
                while program.poll() is None and time.monotonic() < end:
                    if answers(port):
                        yield f"127.0.0.1:{port}"
                        return
                    time.sleep(0.02)
            finally:
                program.terminate()
                with contextlib.suppress(subprocess.TimeoutExpired):
                    program.wait(PATIENCE)
                program.kill()
    raise RuntimeError(f"{command(port)[0]} didn't start")


def entered(test: unittest.TestCase, manager: "contextlib.AbstractContextManager[Given]") -> Given:
    """What a context manager gives, until the end of the test. `enterContext` came with Python 3.11."""
    given = manager.__enter__()
    test.addCleanup(manager.__exit__, None, None, None)
    return given
