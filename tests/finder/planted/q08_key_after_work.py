"""SERVER: the idempotency key is noted when the work is done. A try that is late and its retry are both at work, and both charge."""
import time

from shared import Fault, Link, lines, main, reset, settled

WORK = 0.1


def serve(handler):
    for line in lines(handler):
        word, key, amount = line.decode().split()
        if word == "charge" and handler.state.get(key) is None:
            time.sleep(WORK)
            handler.state.add("charged", int(amount))
            handler.state.add(key)
        elif word == "charge-once" and handler.state.add(key) == 1:
            time.sleep(WORK)
            handler.state.add("charged", int(amount))
        handler.wfile.write(b"done\n")


def _charge(addresses, word):
    failed = None
    for _ in range(3):
        try:
            with Link(addresses["billing"], 0.3) as link:
                if link.ask(word + b" order-7 250") == b"done":
                    return "charged"
        except OSError as error:
            failed = error
    raise ConnectionError("three tries failed") from failed


def client(addresses):
    return _charge(addresses, b"charge")


def fixed(addresses):
    return _charge(addresses, b"charge-once")


before = reset


def check(answer):
    return settled().get("charged") == 250


ALLOWED = OSError
WITHIN = 3.0
SERVICES = {"billing": serve}
FAULT = Fault("billing", "upstream", "latency", {"latency": 300})
if __name__ == "__main__":
    main()
