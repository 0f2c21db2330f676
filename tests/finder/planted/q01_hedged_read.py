"""Hedged read: the slower of two reads still appends its rows when it answers before the page is rendered."""
import threading
import time

from shared import Fault, Link, main

RIGHT = ("row 1", "row 2", "row 3")
HEDGE, LIMIT = 0.15, 0.8


def serve(handler):
    if handler.rfile.readline() == b"rows\n":
        handler.wfile.write("".join(f"{row}\n" for row in RIGHT).encode() + b"end\n")


def _read(address):
    rows = []
    with Link(address, LIMIT) as link:
        link.send(b"rows\n")
        while (line := link.line()) != b"end":
            rows.append(line.decode())
    return rows


def _hedged(addresses, take):
    rows, arrived, lock = [], threading.Event(), threading.Lock()

    def read():
        try:
            found = _read(addresses["shop"])
        except OSError:
            return
        with lock:
            take(rows, found, arrived.is_set())
            arrived.set()

    readers = [threading.Thread(target=read, daemon=True) for _ in range(2)]
    readers[0].start()
    if not arrived.wait(HEDGE):
        readers[1].start()
        if not arrived.wait(LIMIT):
            raise ConnectionError("no replica answered")
        time.sleep(0.3)  # Renders the head of the page.
    return tuple(rows)


def client(addresses):
    return _hedged(addresses, lambda rows, found, late: rows.extend(found))


def fixed(addresses):
    return _hedged(addresses, lambda rows, found, late: late or rows.extend(found))


ALLOWED = OSError
WITHIN = 3.0
SERVICES = {"shop": serve}
FAULT = Fault("shop", "downstream", "latency", {"latency": 300})
if __name__ == "__main__":
    main()
