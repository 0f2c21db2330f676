"""Web servers whose answers tell their ends in other ways: by a length, by a last chunk, by the end of a gzip stream, by the end of TLS."""
import contextlib
import functools
import gzip
import http.server
import pathlib
import socket
import socketserver
import ssl
import subprocess
from typing import Callable, Dict, Iterator

from services import Pages, serving

CHUNKS = (100, 100, 64)
# 2,112 bytes, or 731 by gzip.
TEXT = "".join(f"{number * number:08d}" for number in range(264)).encode()


class Page(http.server.BaseHTTPRequestHandler):
    """Answers each `GET` with a text whose end is that of the connection."""

    protocol_version = "HTTP/1.1"
    coding: Dict[str, str] = {}

    def do_GET(self) -> None:
        self.send_response(200)
        for name, value in {**self.coding, "Connection": "close"}.items():
            self.send_header(name, value)
        self.end_headers()
        self.write_body()
        self.close_connection = True

    def write_body(self) -> None:
        for part in (TEXT[:1000], TEXT[1000:]):
            self.wfile.write(part)

    def log_message(self, *_: object) -> None:
        pass


class Chunked(Page):
    """264 bytes in three chunks, and the last chunk."""

    coding = {"Transfer-Encoding": "chunked"}

    def write_body(self) -> None:
        for size in (*CHUNKS, 0):
            self.wfile.write(b"%x\r\n%s\r\n" % (size, b"x" * size))


class Gzipped(Page):
    """The text by gzip, without a length: it has its own end."""

    coding = {"Content-Encoding": "gzip"}

    def write_body(self) -> None:
        self.wfile.write(gzip.compress(TEXT, mtime=0))


class Secured(Page):
    """The text over TLS, which tells its end before the connection's."""

    def __init__(self, context: ssl.SSLContext, request: socket.socket, client: object, server: socketserver.BaseServer) -> None:
        super().__init__(context.wrap_socket(request, server_side=True), client, server)

    def finish(self) -> None:
        super().finish()
        with self.request:
            self.request.unwrap()


@contextlib.contextmanager
def _address(handler: Callable[..., socketserver.BaseRequestHandler]) -> Iterator[str]:
    with serving(handler) as server:
        yield server.address


def with_length(_: pathlib.Path) -> contextlib.AbstractContextManager[str]:
    """Answers `GET /N` with N bytes behind a `Content-Length`."""
    return _address(Pages)


def chunked(_: pathlib.Path) -> contextlib.AbstractContextManager[str]:
    return _address(Chunked)


def gzipped(_: pathlib.Path) -> contextlib.AbstractContextManager[str]:
    return _address(Gzipped)


def over_tls(folder: pathlib.Path) -> contextlib.AbstractContextManager[str]:
    """The text over TLS, by a certificate that is made for it."""
    key, certificate = f"{folder}/key.pem", f"{folder}/certificate.pem"
    made = ["openssl", "req", "-x509", "-newkey", "rsa:2048", "-nodes", "-keyout", key, "-out", certificate, "-subj", "/CN=localhost"]
    subprocess.run(made, stderr=subprocess.DEVNULL, check=True)
    context = ssl.SSLContext(ssl.PROTOCOL_TLS_SERVER)
    context.load_cert_chain(certificate, key)
    return _address(functools.partial(Secured, context))
