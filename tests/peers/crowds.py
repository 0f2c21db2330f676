"""Many links at once: how many are carried, and what each takes of the system."""
import select
import socket
import time

from .ends import read_all, read_count
from .registry import case
from .served import Engine
from .waiting import LIMIT, check, check_in_time

# What each socket of a link is told: that small writes go out at once, and whether and when a silent peer is asked.
OPTIONS = {
    (socket.IPPROTO_TCP, socket.TCP_NODELAY): 1,
    (socket.SOL_SOCKET, socket.SO_KEEPALIVE): 1,
    (socket.IPPROTO_TCP, socket.TCP_KEEPIDLE): 60,
    (socket.IPPROTO_TCP, socket.TCP_KEEPINTVL): 10,
    (socket.IPPROTO_TCP, socket.TCP_KEEPCNT): 6,
}


def begin_clients(toxi, count):
    """So many clients, whose connects are under way at the same time."""
    clients = [socket.socket() for _ in range(count)]
    for client in clients:
        client.setblocking(False)
        client.connect_ex((toxi.upstream.host, toxi.port))
    return clients


@case(1000)
def clients_come_at_once(toxi):
    """Each second one says a byte at once, the others say nothing. The upstream has each of them within five seconds."""
    begun = time.monotonic()
    clients = begin_clients(toxi, 1000)
    for client in clients[::2]:
        select.select([], [client], [], LIMIT)
        client.send(b"a")
    servers = [toxi.upstream.accept() for _ in clients]
    took = time.monotonic() - begun
    check_in_time(took < 5, f"the upstream had the last of 1000 clients after {took:.1f} s")
    for client in clients:
        client.close()
    heard = [read_all(server) for server in servers]
    check(sorted(heard) == [b""] * 500 + [b"a"] * 500, "the upstream heard other bytes than the clients said")
    for server in servers:
        server.close()
    toxi.ended_alike(1000, [(0, "closed"), (1, "closed")], [(0, "closed")])


@case(100)
def links_take_two_descriptors(toxi):
    """The client's and the upstream's. The harness sees that none is left."""
    pairs = [toxi.link() for _ in range(100)]
    for client, server in pairs:
        client.sendall(b"a")
        read_count(server, 1)
    taken = len(toxi.link_descriptors())
    check(taken == 200, f"100 links take {taken} descriptors")
    for client, server in pairs:
        client.close()
        read_all(server)
        server.close()
    toxi.ended_alike(100, [(1, "closed")], [(0, "closed")])


@case(40)
def workers_share_the_links(toxi):
    """Each worker has two thirds of its share at least, when all clients come at once."""
    clients = begin_clients(toxi, 40)
    servers = [toxi.upstream.accept() for _ in clients]
    for server in servers:
        server.sendall(b"a")
    for client in clients:
        select.select([client], [], [], LIMIT)
        check(client.recv(1) == b"a", "a client heard other bytes than the upstream said")
    if Engine.workers:
        sockets = toxi.polled()
        check(len(sockets) == Engine.workers, f"there are {len(sockets)} polls with links")
        check(sockets[0] * Engine.workers * 3 >= 2 * sum(sockets), f"the workers have {sockets} of the links' sockets")
    for end in (*clients, *servers):
        end.close()
    toxi.ended_alike(40, [(0, "closed")], [(1, "closed")])


@case(1)
def sockets_have_their_options(toxi):
    """Small writes go out at once, and the system asks the peers of both sockets whether they still live."""
    client, server = toxi.link()
    client.sendall(b"a")
    read_count(server, 1)
    sockets = toxi.link_sockets()
    check(len(sockets) == 2, f"a link has {len(sockets)} sockets")
    for end in sockets:
        for option, want in OPTIONS.items():
            told = end.getsockopt(*option)
            check(told == want, f"option {option} is {told}")
        end.close()
    client.close()
    server.close()
    toxi.ended(1, 1, "closed", 0, "closed")
