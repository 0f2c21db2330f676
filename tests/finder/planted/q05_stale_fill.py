"""Cache: a read that answers behind a write fills the cache with the value from before the write."""
import threading
import time

from shared import Fault, Link, lines, main, reset


def serve(handler):
    for line in lines(handler):
        word, *value = line.split()
        if word == b"set":
            handler.state.put("price", int(value[0]))
        handler.wfile.write(b"%d\n" % handler.state.get("price", 40))


def _ask(address, request, limit):
    with Link(address, limit) as link:
        return int(link.ask(request))


def _shop(address, is_stale):
    cache, versions, refreshed, lock = {}, [0], threading.Event(), threading.Lock()

    def refresh():
        began = versions[0]
        try:
            found = _ask(address, b"get", 0.6)
        except (OSError, ValueError):
            return
        with lock:
            if not is_stale(began, versions[0]):
                cache["price"] = found
        refreshed.set()

    threading.Thread(target=refresh, daemon=True).start()
    refreshed.wait(0.15)
    new = _ask(address, b"set 50", 0.4)
    with lock:
        versions[0] += 1
        cache.pop("price", None)
    time.sleep(0.2)  # Tells the customers.
    refreshed.wait(0.3)
    return cache["price"] if "price" in cache else _ask(address, b"get", 0.4), new


def client(addresses):
    return _shop(addresses["shop"], lambda began, now: False)


def fixed(addresses):
    return _shop(addresses["shop"], lambda began, now: began != now)


before = reset
RIGHT = (50, 50)
ALLOWED = OSError
WITHIN = 3.0
SERVICES = {"shop": serve}
FAULT = Fault("shop", "downstream", "latency", {"latency": 300})
if __name__ == "__main__":
    main()
