"""A pool of two slots loses one with each failure: after two there is none left, though the service is back."""
import threading

from shared import Fault, Link, main

RIGHT = "right"


class PoolExhausted(Exception):
    """No slot became free in time."""


def serve(handler):
    if handler.rfile.readline() == b"go\n":
        handler.wfile.write(b"right\n")


class Pool:
    """At most two connections at a time."""

    def __init__(self, address):
        self.address, self.slots = address, threading.Semaphore(2)

    def reserve(self):
        if not self.slots.acquire(timeout=0.2):
            raise PoolExhausted

    def ask(self):
        with Link(self.address, 0.25) as link:
            return link.ask(b"go").decode()


def _careless(pool):
    pool.reserve()
    answer = pool.ask()
    pool.slots.release()
    return answer


def _careful(pool):
    pool.reserve()
    try:
        return pool.ask()
    finally:
        pool.slots.release()


def _work(addresses, ask):
    pool, failed = Pool(addresses["shop"]), None
    for _ in range(3):
        try:
            return ask(pool)
        except OSError as error:
            failed = error
    raise ConnectionError("three tries failed") from failed


def client(addresses):
    return _work(addresses, _careless)


def fixed(addresses):
    return _work(addresses, _careful)


ALLOWED = OSError
WITHIN = 3.0
SERVICES = {"shop": serve}
FAULT = Fault("shop", "downstream", "limit_data", {"bytes": 0}, last=2)
if __name__ == "__main__":
    main()
