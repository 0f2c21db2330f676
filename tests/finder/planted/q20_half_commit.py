"""SERVER: a transfer is applied line by line as it comes, so a cut between debit and credit loses the money."""
from shared import Fault, Link, lines, main, reset, settled


def _apply(handler, steps):
    with handler.state.lock:
        for word, account, amount in steps:
            handler.state.add(account, int(amount) if word == "credit" else -int(amount))


def serve(handler):
    steps, waits = [], False
    for line in lines(handler):
        word, *rest = line.decode().split()
        if word == "begin":
            waits = rest == ["atomic"]
        elif word == "commit":
            _apply(handler, steps)
            handler.wfile.write(b"committed\n")
        elif waits:
            steps.append((word, *rest))
        else:
            _apply(handler, [(word, *rest)])


def _transfer(addresses, begin):
    try:
        with Link(addresses["bank"], 0.4) as link:
            link.send(begin + b"\ndebit alice 100\ncredit bob 100\n")
            return link.ask(b"commit").decode()
    except OSError:
        return "failed"


def client(addresses):
    return _transfer(addresses, b"begin")


def fixed(addresses):
    return _transfer(addresses, b"begin atomic")


before = reset


def check(answer):
    told = settled()
    moved = told.get("alice", 0), told.get("bob", 0)
    return moved == (-100, 100) if answer == "committed" else answer == "failed" and sum(moved) == 0


ALLOWED = OSError
WITHIN = 3.0
SERVICES = {"bank": serve}
FAULT = Fault("bank", "upstream", "limit_data", {"bytes": len(b"begin\ndebit alice 100\n")})
if __name__ == "__main__":
    main()
