"""Back-off doubles without a limit: an outage of a second keeps the caller waiting for many."""
import time

from shared import Fault, Link, main

RIGHT = "right"


def serve(handler):
    if handler.rfile.readline() == b"go\n":
        handler.wfile.write(b"right\n")


def _ask(addresses, deadline):
    end, pause = time.monotonic() + deadline, 0.05
    while True:
        try:
            with Link(addresses["shop"], 0.2) as link:
                return link.ask(b"go").decode()
        except OSError:
            if pause > 4 or time.monotonic() + pause > end:
                raise
        time.sleep(pause)
        pause *= 2


def client(addresses):
    return _ask(addresses, deadline=60)


def fixed(addresses):
    return _ask(addresses, deadline=1)


ALLOWED = OSError
WITHIN = 2.5
SERVICES = {"shop": serve}
FAULT = Fault("shop", "downstream", "limit_data", {"bytes": 0}, last=None)
if __name__ == "__main__":
    main()
