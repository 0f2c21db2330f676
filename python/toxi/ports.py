"""Ports that are kept while nobody listens at them."""
import contextlib
import socket
from typing import Dict, Iterable, Iterator

from .lines import Address


class HeldPorts:
    """Bound sockets that don't listen: a connect is refused, and no other process gets the port."""

    def __init__(self) -> None:
        self._sockets: Dict[Address, socket.socket] = {}

    def hold(self, addresses: Iterable[Address]) -> bool:
        """Holds these ports. False where one can't be held yet, since somebody listens there."""
        held = [self._holds(address) for address in addresses]
        return all(held)

    def _holds(self, address: Address) -> bool:
        if address not in self._sockets:
            bound = socket.socket(socket.AF_INET6 if ":" in address.host else socket.AF_INET)
            # Else the connections that have just ended would keep the port from being bound.
            bound.setsockopt(socket.SOL_SOCKET, socket.SO_REUSEADDR, 1)
            try:
                bound.bind(address)
            except OSError:
                bound.close()
                return False
            self._sockets[address] = bound
        self._share(address, False)
        return True

    def lend(self) -> None:
        """Lets the program listen at them. It sets SO_REUSEADDR too, which both sockets need."""
        for address in self._sockets:
            self._share(address, True)

    def _share(self, address: Address, shared: bool) -> None:
        self._sockets[address].setsockopt(socket.SOL_SOCKET, socket.SO_REUSEADDR, int(shared))

    def release(self) -> None:
        """Gives them up."""
        while self._sockets:
            self._sockets.popitem()[1].close()


@contextlib.contextmanager
def refusing(names: Iterable[str]) -> Iterator[Dict[str, Address]]:
    """An address for each name at which connects are refused, for as long as the `with` statement."""
    with contextlib.ExitStack() as held:
        found: Dict[str, Address] = {}
        for name in names:
            bound = held.enter_context(socket.socket(socket.AF_INET))
            bound.bind(("127.0.0.1", 0))
            found[name] = Address(*bound.getsockname())
        yield found
