"""Connection pool: a connection whose read timed out goes back into the pool, and the next request reads the late answer."""
from shared import Fault, Link, lines, main

PRICES = {b"tea": b"310", b"coffee": b"450"}
RIGHT = 450


def serve(handler):
    for line in lines(handler):
        handler.wfile.write(PRICES.get(line, b"0") + b"\n")


class Pool:
    """Keeps connections that are free."""

    def __init__(self, address, keeps_late):
        self.address, self.keeps_late, self.free = address, keeps_late, []

    def price(self, name, limit):
        link = self.free.pop() if self.free else Link(self.address, 0.5)
        link.limit(limit)
        try:
            answer = link.ask(name)
        except TimeoutError:
            if self.keeps_late:
                self.free.append(link)
            else:
                link.close()
            raise
        except OSError:
            link.close()
            raise
        self.free.append(link)
        return int(answer)

    def close(self):
        for link in self.free:
            link.close()


def _prices(addresses, keeps_late):
    pool = Pool(addresses["shop"], keeps_late)
    try:
        try:
            pool.price(b"tea", 0.2)
        except TimeoutError:
            pass  # The page can do without it.
        return pool.price(b"coffee", 0.5)
    finally:
        pool.close()


def client(addresses):
    return _prices(addresses, keeps_late=True)


def fixed(addresses):
    return _prices(addresses, keeps_late=False)


ALLOWED = OSError
WITHIN = 3.0
SERVICES = {"shop": serve}
FAULT = Fault("shop", "downstream", "latency", {"latency": 400})
if __name__ == "__main__":
    main()
