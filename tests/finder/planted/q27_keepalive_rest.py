"""HTTP keep-alive: an optional body is read by one `recv`, and what is left of it is read as the head of the next answer."""
import re

from shared import Fault, Link, main

BODIES = {b"/banner": b"<p>Order two, and pay one. </p>" * 8, b"/price": b"450"}
RIGHT = 450


class BadAnswer(Exception):
    """A head isn't one of HTTP."""


def serve(handler):
    while path := handler.rfile.readline().split()[1:2]:
        while (line := handler.rfile.readline()) not in (b"\r\n", b""):
            pass
        if line:
            body = BODIES[path[0]]
            handler.wfile.write(b"HTTP/1.1 200 OK\r\nContent-Length: %d\r\n\r\n" % len(body) + body)


def _head(link, path):
    """Asks for a path, and returns its body's length."""
    link.send(b"GET %s HTTP/1.1\r\nHost: shop\r\n\r\n" % path)
    while b"\r\n\r\n" not in link.buffer:
        if not link.more():
            raise ConnectionError("closed inside a head")
    head, _, link.buffer = link.buffer.partition(b"\r\n\r\n")
    if not (length := re.fullmatch(rb"HTTP/1.1 200 OK\r\nContent-Length: (\d+)", head)):
        raise BadAnswer(head)
    return int(length[1])


def _price(addresses, reads_all):
    with Link(addresses["shop"], 0.8) as link:
        size = _head(link, b"/banner")
        if reads_all:
            link.exactly(size)
        else:
            if not link.buffer:
                link.more()
            link.buffer = b""
        return int(link.exactly(_head(link, b"/price")))


def client(addresses):
    return _price(addresses, reads_all=False)


def fixed(addresses):
    return _price(addresses, reads_all=True)


ALLOWED = OSError
WITHIN = 3.0
SERVICES = {"shop": serve}
FAULT = Fault("shop", "downstream", "slicer", {"average_size": 100, "delay": 50000})
if __name__ == "__main__":
    main()
