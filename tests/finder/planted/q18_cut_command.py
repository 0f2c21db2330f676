"""SERVER: a last command without its line feed is carried out, so a cut `limit 25000` sets a limit of 250."""
from shared import Fault, Link, lines, main, reset, settled

COMMANDS = [b"touch session-%04d" % place for place in range(60)] + [b"limit 25000"] + [b"touch session-%04d" % place for place in range(60, 80)]


def _apply(handler, command):
    word, _, value = command.partition(b" ")
    if word == b"limit" and value.isdigit():
        handler.state.put("limit", int(value))


def serve(handler):
    mode = handler.rfile.readline()
    for line in lines(handler) if mode == b"whole lines\n" else handler.rfile:
        _apply(handler, line.strip())
        if line.strip() == b"end":
            handler.wfile.write(b"applied\n")


def _load(addresses, mode):
    try:
        with Link(addresses["settings"], 0.5) as link:
            link.send(mode + b"".join(command + b"\n" for command in COMMANDS))
            return link.ask(b"end").decode()
    except OSError:
        return "failed"


def client(addresses):
    return _load(addresses, b"any lines\n")


def fixed(addresses):
    return _load(addresses, b"whole lines\n")


before = reset


def check(answer):
    limit = settled().get("limit")
    return limit == 25000 if answer == "applied" else answer == "failed" and limit in (None, 25000)


ALLOWED = OSError
WITHIN = 3.0
SERVICES = {"settings": serve}
# Amid the digits: 4 offsets of some 1,500.
FAULT = Fault("settings", "upstream", "limit_data", {"bytes": len(b"any lines\n") + 60 * len(b"touch session-0000\n") + len(b"limit 250")})
if __name__ == "__main__":
    main()
