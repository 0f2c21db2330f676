"""Two upstreams: a charge that isn't answered is taken for none, and the reserved goods are given back though they are paid."""
from shared import Fault, Link, lines, main, reset, settled


def serve_stock(handler):
    for line in lines(handler):
        handler.state.put("reserved", line == b"reserve")
        handler.wfile.write(b"ok\n")


def serve_billing(handler):
    for line in lines(handler):
        if line == b"charge":
            handler.state.put("charged", True)
        handler.wfile.write(b"ok\n")


def _ask(address, request):
    with Link(address, 0.3) as link:
        if link.ask(request) != b"ok":
            raise ConnectionError("refused")


def _buy(addresses, gives_back):
    """`bought`; `failed`, with nothing charged; or `unknown`, where someone has to look at it and the goods stay reserved."""
    _ask(addresses["stock"], b"reserve")
    try:
        _ask(addresses["billing"], b"charge")
    except OSError:
        if not gives_back:
            return "unknown"
        _ask(addresses["stock"], b"release")
        return "failed"
    return "bought"


def client(addresses):
    return _buy(addresses, gives_back=True)


def fixed(addresses):
    return _buy(addresses, gives_back=False)


before = reset


def check(answer):
    told = settled()
    reserved, charged = told.get("reserved", False), told.get("charged", False)
    return {"bought": reserved and charged, "unknown": reserved, "failed": not charged}[answer]


ALLOWED = OSError
WITHIN = 3.0
SERVICES = {"stock": serve_stock, "billing": serve_billing}
FAULT = Fault("billing", "downstream", "limit_data", {"bytes": 0})
if __name__ == "__main__":
    main()
