"""Leader lease: the holder counts it from the answer on, the service from the request on. A late answer makes two holders."""
import time

from shared import Fault, Link, lines, main, reset, state

LEASE, WORK = 0.4, 0.15


def serve(handler):
    for line in lines(handler):
        word, *rest = line.split()
        if word == b"acquire":
            handler.state.put("ends", time.monotonic() + LEASE)
            handler.wfile.write(b"granted\n")
        elif word == b"write":
            if float(rest[0]) > handler.state.get("ends", 0.0):
                handler.state.add("written without a lease")
            handler.wfile.write(b"written\n")


def _lead(addresses, starts_at_answer):
    with Link(addresses["locks"], 0.6) as link:
        asked = time.monotonic()
        if link.ask(b"acquire") != b"granted":
            raise ConnectionError("not granted")
        held_until = (time.monotonic() if starts_at_answer else asked) + LEASE
        time.sleep(WORK)  # Makes the record.
        link.limit(0.6)
        instant = time.monotonic()
        if instant >= held_until:
            raise ConnectionError("the lease is over")
        if link.ask(b"write %.6f" % instant) != b"written":
            raise ConnectionError("not written")
        return "written"


def client(addresses):
    return _lead(addresses, starts_at_answer=True)


def fixed(addresses):
    return _lead(addresses, starts_at_answer=False)


before = reset


def check(answer):
    return answer == "written" and "written without a lease" not in state()


ALLOWED = OSError
WITHIN = 3.0
SERVICES = {"locks": serve}
FAULT = Fault("locks", "downstream", "latency", {"latency": 400})
if __name__ == "__main__":
    main()
