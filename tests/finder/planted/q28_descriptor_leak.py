"""Descriptors: a reader of a socket isn't closed when its request fails, and a list of errors keeps its frame alive."""
import socket

from shared import Fault, main

RIGHT = ("right", 0)


def serve(handler):
    if handler.rfile.readline() == b"go\n":
        handler.wfile.write(b"right\n")


def _ask(link, always_closes):
    """Asks on a connection of the caller's, and closes the reader that it makes."""
    reader = link.makefile("rb")
    try:
        link.sendall(b"go\n")
        line = reader.readline(64)
        if not line.endswith(b"\n"):
            raise ConnectionError("closed inside a line")
    except OSError:
        if always_closes:
            reader.close()
        raise
    reader.close()
    return line.strip().decode()


def _work(addresses, always_closes):
    """The answer or None, and how many sockets are left open."""
    links, errors = [], []
    for _ in range(2):
        try:
            with socket.create_connection(addresses["shop"], 0.25) as link:
                links.append(link)
                answer = _ask(link, always_closes)
                break
        except OSError as error:
            errors.append(error)  # The report of the day lists them.
    else:
        answer = None
    return answer, sum(link.fileno() != -1 for link in links)


def client(addresses):
    return _work(addresses, always_closes=False)


def fixed(addresses):
    return _work(addresses, always_closes=True)


def check(answer):
    return answer in (RIGHT, (None, 0))


ALLOWED = OSError
WITHIN = 4.0
SERVICES = {"shop": serve}
FAULT = Fault("shop", "downstream", "limit_data", {"bytes": 0})
if __name__ == "__main__":
    main()
