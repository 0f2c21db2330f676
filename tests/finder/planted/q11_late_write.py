"""A write that timed out is still on its way when the next one is made on a new connection, and overwrites it."""
from shared import Fault, Link, lines, main, reset, settled


def serve(handler):
    for line in lines(handler):
        word, version, value = line.split()
        with handler.state.lock:
            if word == b"put" or int(version) > handler.state.get("version", 0):
                handler.state.put("value", value.decode())
                handler.state.put("version", int(version))
        handler.wfile.write(b"stored\n")


def _put(addresses, word, version, value):
    with Link(addresses["settings"], 0.25) as link:
        if link.ask(b"%s %d %s" % (word, version, value)) != b"stored":
            raise ConnectionError("not stored")


def _change(addresses, word):
    try:
        _put(addresses, word, 1, b"draft")
    except OSError:
        pass  # The next save has all of it.
    _put(addresses, word, 2, b"final")
    return "saved"


def client(addresses):
    return _change(addresses, b"put")


def fixed(addresses):
    return _change(addresses, b"put-newer")


before = reset


def check(answer):
    return settled().get("value") == "final"


ALLOWED = OSError
WITHIN = 3.0
SERVICES = {"settings": serve}
FAULT = Fault("settings", "upstream", "latency", {"latency": 500})
if __name__ == "__main__":
    main()
