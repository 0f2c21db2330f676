"""Which of some upstreams nobody listens at."""
import socket
from typing import Iterator, Mapping, Tuple

# How long a service that may not be there is looked for, in seconds.
CONNECT_LIMIT = 2.0


def absent_services(upstreams: Mapping[str, str]) -> Iterator[Tuple[str, str, Exception]]:
    """The names of the upstreams that no connection can be made to, their addresses, `host:port`, and why."""
    for name, upstream in upstreams.items():
        host, _, port = upstream.rpartition(":")
        try:
            socket.create_connection((host.strip("[]"), int(port)), CONNECT_LIMIT).close()
        except (OSError, ValueError) as error:
            yield name, upstream, error
