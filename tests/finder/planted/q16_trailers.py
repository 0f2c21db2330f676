"""HTTP trailers: the end of the connection ends them too, so a page without its `X-Next` is taken for the last."""
from shared import Fault, Link, main

PAGES = [[b"order %d-%03d: 2 x tea, 1 x coffee, paid by card" % (page, place) for place in range(25)] for page in (1, 2)]
RIGHT = 50


def serve(handler):
    request = handler.rfile.readline().split()
    while (line := handler.rfile.readline()) not in (b"\r\n", b""):
        pass
    if line:
        page = int(request[1][-1:])
        handler.wfile.write(b"HTTP/1.1 200 OK\r\nTransfer-Encoding: chunked\r\nTrailer: X-Next\r\n\r\n")
        for row in PAGES[page - 1]:
            handler.wfile.write(b"%x\r\n%s\r\n" % (len(row), row))
        handler.wfile.write(b"0\r\nX-Next: %d\r\n\r\n" % (page + 1 if page < len(PAGES) else 0))


def _page(address, number, ends_trailers):
    """The rows of a page, and the number of the next or 0."""
    with Link(address, 0.5) as link:
        link.send(b"GET /orders?page=%d HTTP/1.1\r\nHost: shop\r\n\r\n" % number)
        if link.line().split()[1:2] != [b"200"]:
            raise ConnectionError("no page")
        while link.line().strip():
            pass
        rows = []
        while size := int(link.line(), 16):
            rows.append(link.exactly(size + 2)[:-2])
        after = 0
        try:
            while line := link.line().strip():
                after = int(line.split(b":")[1]) if line.lower().startswith(b"x-next:") else after
        except ConnectionError:
            if not ends_trailers:
                raise
        return rows, after


def _orders(addresses, ends_trailers):
    rows, page = [], 1
    while page:
        found, page = _page(addresses["shop"], page, ends_trailers)
        rows += found
    return len(rows)


def client(addresses):
    return _orders(addresses, ends_trailers=True)


def fixed(addresses):
    return _orders(addresses, ends_trailers=False)


ALLOWED = OSError
WITHIN = 3.0
SERVICES = {"shop": serve}
HEAD = len(b"HTTP/1.1 200 OK\r\nTransfer-Encoding: chunked\r\nTrailer: X-Next\r\n\r\n")
# Behind the last chunk, in the trailer of 13 bytes.
FAULT = Fault("shop", "downstream", "limit_data", {"bytes": HEAD + sum(len(row) + 6 for row in PAGES[0]) + 3})
if __name__ == "__main__":
    main()
