"""Circuit breaker: a trial call that fails stays noted as running, so the breaker refuses calls for ever."""
import time

from shared import Fault, Link, main

RIGHT = "right"
PAUSE = 0.1


class BreakerOpen(Exception):
    """The breaker refuses a call."""


class Breaker:
    """Opens at a failure. After a pause it lets one trial through."""

    def __init__(self, call, ends_trial):
        self.call, self.ends_trial = call, ends_trial
        self.open_until, self.trial = None, False

    def __call__(self):
        if self.open_until is not None:
            if time.monotonic() < self.open_until or self.trial:
                raise BreakerOpen
            self.trial = True
        try:
            answer = self.call()
        except OSError:
            self.open_until = time.monotonic() + PAUSE
            if self.ends_trial:
                self.trial = False
            raise
        self.open_until, self.trial = None, False
        return answer


def serve(handler):
    if handler.rfile.readline() == b"go\n":
        handler.wfile.write(b"right\n")


def _work(addresses, ends_trial):
    def ask():
        with Link(addresses["shop"], 0.25) as link:
            return link.ask(b"go").decode()

    breaker, failed = Breaker(ask, ends_trial), None
    for _ in range(4):
        try:
            return breaker()
        except OSError as error:
            failed = error
            time.sleep(PAUSE + 0.05)
    raise ConnectionError("four calls failed") from failed


def client(addresses):
    return _work(addresses, ends_trial=False)


def fixed(addresses):
    return _work(addresses, ends_trial=True)


ALLOWED = OSError
WITHIN = 4.0
SERVICES = {"shop": serve}
FAULT = Fault("shop", "downstream", "limit_data", {"bytes": 0}, last=2)
if __name__ == "__main__":
    main()
