"""Retries on two levels multiply: four tries of the client by four of the caller are sixteen connections in an outage."""
from shared import Fault, Link, main, reset, state

MOST = 8


def serve(handler):
    if handler.rfile.readline() == b"go\n":
        handler.wfile.write(b"right\n")


def _tries(count, call):
    failed = None
    for _ in range(count):
        try:
            return call()
        except OSError as error:
            failed = error
    raise ConnectionError(f"{count} tries failed") from failed


def _ask(addresses, inner):
    def fetch():
        with Link(addresses["shop"], 0.15) as link:
            return link.ask(b"go").decode()

    try:
        return _tries(4, lambda: _tries(inner, fetch))
    except OSError:
        return None


def client(addresses):
    return _ask(addresses, inner=4)


def fixed(addresses):
    return _ask(addresses, inner=1)


before = reset


def check(answer):
    return answer in ("right", None) and state()["connections"] <= MOST


ALLOWED = OSError
WITHIN = 4.0
SERVICES = {"shop": serve}
FAULT = Fault("shop", "downstream", "limit_data", {"bytes": 0}, last=None)
if __name__ == "__main__":
    main()
