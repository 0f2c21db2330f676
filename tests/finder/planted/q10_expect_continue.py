"""HTTP `Expect: 100-continue`: the body is sent after 0.2 s without a 100, and the late 100 is taken for the final answer."""
import re

from shared import Fault, Link, main

BODY = b"size=large&colour=blue&" * 20
RIGHT = (507, b"full")


def serve(handler):
    size = 0
    while (line := handler.rfile.readline()) not in (b"\r\n", b""):
        if line.lower().startswith(b"content-length:"):
            size = int(line.split(b":")[1])
    if line:
        handler.wfile.write(b"HTTP/1.1 100 Continue\r\n\r\n")
        if len(handler.rfile.read(size)) == size:
            handler.wfile.write(b"HTTP/1.1 507 Insufficient Storage\r\nContent-Length: 4\r\n\r\nfull")


def _answer(link):
    """Status and body of an answer. One without a length has no body."""
    while b"\r\n\r\n" not in link.buffer:
        if not link.more():
            raise ConnectionError("closed inside a head")
    head, link.buffer = link.buffer.split(b"\r\n\r\n", 1)
    size = re.search(rb"(?i)content-length: *(\d+)", head)
    return int(head.split()[1]), link.exactly(int(size[1]) if size else 0)


def _put(addresses, skips_late):
    with Link(addresses["store"], 0.2) as link:
        link.send(b"PUT /order HTTP/1.1\r\nHost: store\r\nExpect: 100-continue\r\nContent-Length: %d\r\n\r\n" % len(BODY))
        try:
            answer = _answer(link)
            if answer[0] != 100:
                return answer
        except TimeoutError:
            pass  # An old server doesn't know 100.
        link.limit(0.6)
        link.send(BODY)
        answer = _answer(link)
        while skips_late and answer[0] == 100:
            answer = _answer(link)
        return answer


def client(addresses):
    return _put(addresses, skips_late=False)


def fixed(addresses):
    return _put(addresses, skips_late=True)


ALLOWED = OSError
WITHIN = 3.0
SERVICES = {"store": serve}
FAULT = Fault("store", "downstream", "latency", {"latency": 350})
if __name__ == "__main__":
    main()
