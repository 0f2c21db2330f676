"""Pipelining: an answer that isn't there in time is skipped, and when it comes it is taken for the next one."""
from shared import Fault, Link, lines, main

STOCK = {b"tea": b"12", b"coffee": b"7", b"milk": b"30", b"sugar": b"4"}


def serve(handler):
    for line in lines(handler):
        handler.wfile.write(STOCK.get(line, b"0") + b"\n")


def _stock(addresses, shifts):
    with Link(addresses["shop"], 0.5) as link:
        link.send(b"".join(name + b"\n" for name in STOCK))
        found = {}
        for name in STOCK:
            link.limit(0.2)
            try:
                found[name] = int(link.line())
            except TimeoutError:
                if not shifts:
                    break  # The rest stays unknown.
        if not found:
            raise TimeoutError("no answer")
        return found


def client(addresses):
    return _stock(addresses, shifts=True)


def fixed(addresses):
    return _stock(addresses, shifts=False)


def check(answer):
    return all(answer[name] == int(STOCK[name]) for name in answer)


ALLOWED = OSError
WITHIN = 3.0
SERVICES = {"shop": serve}
FAULT = Fault("shop", "downstream", "latency", {"latency": 300})
if __name__ == "__main__":
    main()
