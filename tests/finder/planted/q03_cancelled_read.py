"""A poll with a limit drops the part of an answer that it has read, and the next poll begins amid the answer."""
import time

from shared import Fault, Link, main

ROWS = [b"%04d=%d" % (place, place * 37 % 1000) for place in range(30)]
RIGHT = sum(place * 37 % 1000 for place in range(30))


def serve(handler):
    if handler.rfile.readline() == b"report\n":
        handler.wfile.write(b"\n".join(ROWS) + b"\nend\n")


def _poll(link, keeps_part):
    """The rows, or None where they aren't whole in 0.15 s."""
    lines = link.kept if keeps_part else []
    link.limit(0.15)
    try:
        while not lines or lines[-1] != b"end":
            lines.append(link.line())
    except TimeoutError:
        return None
    return lines[:-1]


def _report(addresses, keeps_part):
    end = time.monotonic() + 1.2
    with Link(addresses["shop"], 0.5) as link:
        link.kept = []
        link.send(b"report\n")
        while (rows := _poll(link, keeps_part)) is None:
            if time.monotonic() > end:
                raise TimeoutError("no report")
        return sum(int(row.split(b"=")[1]) for row in rows)


def client(addresses):
    return _report(addresses, keeps_part=False)


def fixed(addresses):
    return _report(addresses, keeps_part=True)


ALLOWED = OSError
WITHIN = 3.0
SERVICES = {"shop": serve}
FAULT = Fault("shop", "downstream", "bandwidth", {"rate": 1})
if __name__ == "__main__":
    main()
