"""Time client: the late answer to the first request is taken for the answer to the second, so the offset is wrong."""
import time

from shared import Fault, Link, lines, main

LONGEST_TRIP = 0.2


def serve(handler):
    for line in lines(handler):
        handler.wfile.write(b"%s %.6f\n" % (line, time.monotonic()))


def _offset(addresses, is_mine):
    with Link(addresses["clock"], 0.5) as link:
        for attempt in (b"1", b"2", b"3"):
            link.limit(LONGEST_TRIP)
            sent = time.monotonic()
            try:
                number, told = link.ask(attempt).split()
                while not is_mine(number, attempt):
                    number, told = link.line().split()
            except TimeoutError:
                continue
            received = time.monotonic()
            if received - sent <= LONGEST_TRIP:
                return float(told) - (sent + received) / 2
        raise ConnectionError("each trip takes too long")


def client(addresses):
    return _offset(addresses, lambda number, attempt: True)


def fixed(addresses):
    return _offset(addresses, lambda number, attempt: number == attempt)


def check(answer):
    # Both clocks are one. Half a trip is the most that a right offset can be wrong by.
    return abs(answer) <= LONGEST_TRIP / 2 + 0.001


ALLOWED = OSError
WITHIN = 3.0
SERVICES = {"clock": serve}
FAULT = Fault("clock", "downstream", "latency", {"latency": 300})
if __name__ == "__main__":
    main()
