"""Two upstreams: a read of one's own write goes to a replica when the primary fails, and the replica doesn't have it yet."""
from shared import Fault, Link, lines, main, reset

RIGHT = "shipped"


def serve_primary(handler):
    for line in lines(handler):
        if line == b"ship":
            handler.state.put("order", "shipped")
        handler.wfile.write(b"%d %s\n" % (2 if handler.state.get("order") else 1, handler.state.get("order", "open").encode()))


def serve_replica(handler):
    for _ in lines(handler):
        handler.wfile.write(b"1 open\n")  # It lags by seconds.


def _ask(address, request):
    with Link(address, 0.3) as link:
        version, status = link.ask(request).split()
        return int(version), status.decode()


def _ship(addresses, needs_version):
    written, _ = _ask(addresses["primary"], b"ship")
    failed = None
    for name in ("primary", "replica"):
        try:
            version, status = _ask(addresses[name], b"status")
        except OSError as error:
            failed = error
            continue
        if version >= written or not needs_version:
            return status
    raise ConnectionError("no copy has the write") from failed


def client(addresses):
    return _ship(addresses, needs_version=False)


def fixed(addresses):
    return _ship(addresses, needs_version=True)


before = reset
ALLOWED = OSError
WITHIN = 3.0
SERVICES = {"primary": serve_primary, "replica": serve_replica}
FAULT = Fault("primary", "downstream", "limit_data", {"bytes": 0}, first=2, last=2)
if __name__ == "__main__":
    main()
