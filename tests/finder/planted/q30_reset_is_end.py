"""A reset is taken for the end of the stream, since an old service resets when it has sent all. Rows are missing."""
from shared import Fault, Link, main

ROWS = [b"row %03d" % place for place in range(50)]
RIGHT = 50


def serve(handler):
    if handler.rfile.readline() == b"rows\n":
        for row in ROWS:
            handler.wfile.write(row + b"\n")
        handler.wfile.write(b"end\n")


def _rows(addresses, ends_by_reset):
    rows = []
    with Link(addresses["shop"], 0.5) as link:
        try:
            link.send(b"rows\n")
            while (row := link.line()) != b"end":
                rows.append(row)
        except ConnectionResetError:
            if not ends_by_reset or not rows:
                raise
    return len(rows)


def client(addresses):
    return _rows(addresses, ends_by_reset=True)


def fixed(addresses):
    return _rows(addresses, ends_by_reset=False)


ALLOWED = OSError
WITHIN = 3.0
SERVICES = {"shop": serve}
FAULT = Fault("shop", "downstream", "reset_peer", {"timeout": 0, "after": 80})
if __name__ == "__main__":
    main()
