"""Settings: where they can't be read at the start a default serves, and it is cached for ever, so they are never read again."""
from shared import Fault, Link, lines, main

DEFAULT = 1000


def serve(handler):
    for line in lines(handler):
        if line == b"get limit":
            handler.wfile.write(b"limit 50\n")


class Settings:
    """Reads a limit once, and keeps it."""

    def __init__(self, address, keeps_default):
        self.address, self.keeps_default, self.limit = address, keeps_default, None

    def read(self):
        with Link(self.address, 0.25) as link:
            return int(link.ask(b"get limit").split()[1])

    def at_start(self):
        """A default may serve before the first order."""
        try:
            self.limit = self.read()
        except OSError:
            if self.keeps_default:
                self.limit = DEFAULT
            return DEFAULT
        return self.limit

    def for_an_order(self):
        if self.limit is None:
            self.limit = self.read()
        return self.limit


def _limits(addresses, keeps_default):
    settings = Settings(addresses["settings"], keeps_default)
    return settings.at_start(), settings.for_an_order()


def client(addresses):
    return _limits(addresses, keeps_default=True)


def fixed(addresses):
    return _limits(addresses, keeps_default=False)


def check(answer):
    return answer[0] in (50, DEFAULT) and answer[1] == 50


ALLOWED = OSError
WITHIN = 3.0
SERVICES = {"settings": serve}
FAULT = Fault("settings", "downstream", "limit_data", {"bytes": 0})
if __name__ == "__main__":
    main()
