"""HTTP redirect: the end of the connection ends the head too, so a cut `Location` leads to another order."""
from shared import Fault, Link, main

HEAD = b"HTTP/1.1 302 Found\r\nServer: shop\r\nSet-Cookie: session=%s; Path=/; HttpOnly\r\nLocation: /orders/4711" % (b"0f" * 300)
RIGHT = "order 4711"


def serve(handler):
    request = handler.rfile.readline().split()
    while (line := handler.rfile.readline()) not in (b"\r\n", b""):
        pass
    if not line:
        return
    if request[1] == b"/orders/latest":
        handler.wfile.write(HEAD + b"\r\n\r\n")
    elif not (number := request[1].rpartition(b"/")[2]).isdigit():
        handler.wfile.write(b"HTTP/1.1 404 Not Found\r\nContent-Length: 0\r\n\r\n")
    else:
        body = b"order " + number
        handler.wfile.write(b"HTTP/1.1 200 OK\r\nContent-Length: %d\r\n\r\n" % len(body) + body)


def _head(link, ends_anywhere):
    """The lines of a head."""
    while b"\r\n\r\n" not in link.buffer:
        if not link.more():
            if ends_anywhere:
                break
            raise ConnectionError("closed inside a head")
    head, _, link.buffer = link.buffer.partition(b"\r\n\r\n")
    return head.split(b"\r\n")


def _get(address, path, ends_anywhere, redirects=3):
    with Link(address, 0.5) as link:
        link.send(b"GET %s HTTP/1.1\r\nHost: shop\r\n\r\n" % path)
        status, *lines = _head(link, ends_anywhere)
        fields = dict(line.lower().split(b": ", 1) for line in lines if b": " in line)
        if b" 302 " in status and redirects and fields.get(b"location"):
            return _get(address, fields[b"location"], ends_anywhere, redirects - 1)
        if b" 200 " not in status or b"content-length" not in fields:
            raise ConnectionError("no order")
        return link.exactly(int(fields[b"content-length"])).decode()


def client(addresses):
    return _get(addresses["shop"], b"/orders/latest", ends_anywhere=True)


def fixed(addresses):
    return _get(addresses["shop"], b"/orders/latest", ends_anywhere=False)


ALLOWED = OSError
WITHIN = 4.0
SERVICES = {"shop": serve}
# Amid the number at the end of the head: 3 offsets of some 700.
FAULT = Fault("shop", "downstream", "limit_data", {"bytes": len(HEAD) - 2})
if __name__ == "__main__":
    main()
