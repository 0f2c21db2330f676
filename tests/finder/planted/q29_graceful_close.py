"""Limits end with the answer: the polite close waits for the peer's end without one, and a silent peer holds it for ever."""
from shared import Fault, Link, lines, main

RIGHT = "right"


def serve(handler):
    for line in lines(handler):
        if line == b"quit":
            handler.wfile.write(b"bye\n")
            return
        handler.wfile.write(b"right\n")


def _ask(addresses, close_limit):
    with Link(addresses["shop"], 0.4) as link:
        answer = link.ask(b"go").decode()
        try:
            link.limit(0.4)
            link.send(b"quit\n")
            link.socket.settimeout(close_limit)
            while link.socket.recv(4096):
                pass
        except OSError:
            pass  # The answer is there.
        return answer


def client(addresses):
    return _ask(addresses, close_limit=None)


def fixed(addresses):
    return _ask(addresses, close_limit=0.3)


ALLOWED = OSError
WITHIN = 3.0
SERVICES = {"shop": serve}
# Behind the answer.
FAULT = Fault("shop", "downstream", "timeout", {"timeout": 0, "after": len(b"right\n")})
if __name__ == "__main__":
    main()
