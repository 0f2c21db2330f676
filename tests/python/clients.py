"""Clients of `services.Lines`: two that are right, and some with a bug each that only a fault shows."""
import socket
from typing import Mapping, Optional, Tuple

Addresses = Mapping[str, Tuple[str, int]]

REQUEST = b"hello\n"
# The time limit of the clients that have one, in seconds.
LIMIT = 0.2
# That of clients of which several run at once.
PATIENCE = 1.0


class Refused(OSError):
    """What `correct` raises, whatever has happened to its connection."""


def parts(link: socket.socket) -> Tuple[int, bytes]:
    """Reads the size of an answer and as much of it as comes."""
    with link.makefile("rb") as answer:
        size = answer.readline()
        if not size.endswith(b"\n"):
            raise ConnectionError("cut in the size")
        return int(size), answer.read(int(size))


def answer_of(link: socket.socket) -> bytes:
    """Reads a whole answer. Raises OSError for a cut one."""
    size, body = parts(link)
    if len(body) < size:
        raise ConnectionError("cut in the body")
    return body


def ask(link: socket.socket, request: bytes = REQUEST) -> bytes:
    """Asks, and reads a whole answer. Raises OSError for a cut one."""
    link.sendall(request)
    return answer_of(link)


def whole(addresses: Addresses, limit: Optional[float] = LIMIT) -> bytes:
    """Reads what it should, and gives up in time."""
    with socket.create_connection(addresses["shop"], limit) as link:
        return ask(link)


def correct(addresses: Addresses, proxy: str = "shop", request: bytes = REQUEST) -> bytes:
    """As `whole`, and fails in one way."""
    try:
        with socket.create_connection(addresses[proxy], PATIENCE) as link:
            return ask(link, request)
    except OSError as error:
        raise Refused("the connection failed") from error


def one_recv(addresses: Addresses, limit: float = LIMIT) -> bytes:
    """It takes what one `recv` gives for the whole answer."""
    with socket.create_connection(addresses["shop"], limit) as link:
        link.sendall(REQUEST)
        return link.recv(100)


def cut_body(addresses: Addresses, limit: float = LIMIT) -> bytes:
    """It takes a cut body for a whole one."""
    with socket.create_connection(addresses["shop"], limit) as link:
        link.sendall(REQUEST)
        return parts(link)[1]


def patient_cut_body(addresses: Addresses) -> bytes:
    """As `cut_body`, for where several run at once."""
    return cut_body(addresses, PATIENCE)


def sends_twice(addresses: Addresses) -> bytes:
    """It sends its request again where a reset breaks off the answer, so the server has taken it."""
    with socket.create_connection(addresses["shop"], LIMIT) as link:
        link.sendall(REQUEST)
        # Fails where no answer begins: whether the server has taken the request is a race then.
        link.recv(1, socket.MSG_PEEK)
        try:
            return answer_of(link)
        except ConnectionResetError:
            return whole(addresses)


def waits(addresses: Addresses) -> bytes:
    """It has no time limit."""
    return whole(addresses, None)


class NoRecovery(Exception):
    """A new connection works, and the pool doesn't."""


def keeps_dead(addresses: Addresses) -> bytes:
    """Its pool keeps a connection that has failed."""
    with socket.create_connection(addresses["shop"], LIMIT) as pooled:
        try:
            return ask(pooled)
        except OSError:
            pass
        try:
            return ask(pooled)
        except OSError as error:
            answer = whole(addresses)
            raise NoRecovery(answer) from error


def careless_fallback(addresses: Addresses) -> bytes:
    """Where the first service fails it asks the second one, and takes a cut answer of that for a whole one."""
    try:
        return whole({"shop": addresses["first"]})
    except OSError:
        return cut_body({"shop": addresses["second"]})
