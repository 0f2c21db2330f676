"""Heartbeats: a service that waits for a request sends `alive` each 0.2 s, and a client takes that for its answer."""
import selectors

from shared import Fault, Link, main

RIGHT = "balance 120"
BEAT = 0.2


def serve(handler):
    with selectors.DefaultSelector() as selector:
        selector.register(handler.request, selectors.EVENT_READ)
        for _ in range(20):
            if not selector.select(BEAT):
                handler.wfile.write(b"alive\n")
                continue
            line = handler.rfile.readline()
            if not line.endswith(b"\n"):
                return
            handler.wfile.write(b"balance 120\n")


def _balance(addresses, skips_beats):
    with Link(addresses["bank"], 0.7) as link:
        answer = link.ask(b"balance")
        while skips_beats and answer == b"alive":
            answer = link.line()
        return answer.decode()


def client(addresses):
    return _balance(addresses, skips_beats=False)


def fixed(addresses):
    return _balance(addresses, skips_beats=True)


ALLOWED = OSError
WITHIN = 3.0
SERVICES = {"bank": serve}
FAULT = Fault("bank", "upstream", "latency", {"latency": 400})
if __name__ == "__main__":
    main()
