"""Two upstreams: updates are applied in the order in which they arrive, so a late price undoes its correction."""
import threading
import time

from shared import Fault, Link, main

RIGHT = {"tea": 315}


def serve_prices(handler):
    if handler.rfile.readline() == b"subscribe\n":
        handler.wfile.write(b"1 tea 310\n")


def serve_corrections(handler):
    if handler.rfile.readline() == b"subscribe\n":
        time.sleep(0.15)
        handler.wfile.write(b"2 tea 315\n")


def _merged(addresses, orders):
    updates, failures, lock = [], [], threading.Lock()

    def follow(name):
        try:
            with Link(addresses[name], 0.7) as link:
                update = link.ask(b"subscribe").decode().split()
            with lock:
                updates.append((int(update[0]), update[1], int(update[2])))
        except OSError as error:
            failures.append(error)

    followers = [threading.Thread(target=follow, args=(name,), daemon=True) for name in ("prices", "corrections")]
    for follower in followers:
        follower.start()
    for follower in followers:
        follower.join()
    if failures:
        raise failures[0]
    return {name: price for _, name, price in (sorted(updates) if orders else updates)}


def client(addresses):
    return _merged(addresses, orders=False)


def fixed(addresses):
    return _merged(addresses, orders=True)


ALLOWED = OSError
WITHIN = 3.0
SERVICES = {"prices": serve_prices, "corrections": serve_corrections}
FAULT = Fault("prices", "downstream", "latency", {"latency": 400})
if __name__ == "__main__":
    main()
