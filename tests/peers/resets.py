"""Resets: what each kind of peer is told of one, and when.

A peer was reset if a call of it fails with ECONNRESET and no end came before. Only a peer towards which the other stream had
closed heard an end, and then its calls fail otherwise.
"""
import concurrent.futures
import contextlib
import select
import time
from collections import Counter, namedtuple

from .ends import BLOCK, has_ended, is_reset, read_all, read_count, reset, send_until_full, shut_writing
from .registry import case
from .waiting import LIMIT, Failed, check, check_in_time, wait_until

# What a peer does as its link begins, what it does in a thread of its own until it is told, and how it finds out later.
Peer = namedtuple("Peer", "first meanwhile later", defaults=(None, None, None))
SAID = b"hello"
# How late the system's word of a reset may be in a test, in seconds.
LATE = 1
# More bytes than the sockets of a client that doesn't read take.
HELD = 20_000_000


def say(end):
    end.sendall(SAID)


def writes_fail(end):
    """The first write tells of the reset."""
    with contextlib.suppress(ConnectionResetError):
        end.send(SAID)
        raise Failed("a connection that was reset takes bytes")


def flood(end):
    """Waits for room again and again, until it is reset."""
    with contextlib.suppress(ConnectionResetError):
        while True:
            end.sendall(BLOCK)


def flood_until_gone(end):
    with contextlib.suppress(BrokenPipeError):
        flood(end)


READS_LATER = Peer(later=is_reset)
WRITES_LATER = Peer(later=writes_fail)
SAYS = Peer(first=say, later=is_reset)
SHUTS = Peer(first=shut_writing, later=is_reset)
ENDED_BEFORE = Peer(later=has_ended)
WAITS_TO_READ = Peer(meanwhile=is_reset)
FLOODS = Peer(meanwhile=flood)
FLOODS_ENDED_BEFORE = Peer(meanwhile=flood_until_gone)

# Clients and upstreams of links whose downstream is reset.
KINDS = [
    (READS_LATER, READS_LATER),
    (READS_LATER, SAYS),
    (SAYS, SAYS),
    (WRITES_LATER, WRITES_LATER),
    (SHUTS, ENDED_BEFORE),
    (SHUTS, ENDED_BEFORE),
]
# Three of each among 300: a flood fills some ten megabytes.
BUSY_KINDS = [
    (WAITS_TO_READ, WAITS_TO_READ),
    (FLOODS, READS_LATER),
    (READS_LATER, FLOODS),
    (FLOODS, FLOODS),
    (SHUTS, FLOODS_ENDED_BEFORE),
]


def kind_of(place):
    busy = place % 100
    return BUSY_KINDS[busy] if busy < len(BUSY_KINDS) else KINDS[place % len(KINDS)]


class Watch:
    """When the system tells of the end of each of these connections, in both directions or by an error."""

    def __init__(self):
        self.waiting = select.epoll()
        self.due = {}

    def add(self, end, earliest, latest):
        self.due[end.fileno()] = earliest, latest
        self.waiting.register(end, select.EPOLLONESHOT)

    def run(self, count):
        """Waits for so many, and returns those that were told too early, and those told too late."""
        early, late = [], []
        for _ in range(count):
            told = self.waiting.poll(LIMIT, 1)
            check(told, f"not within {LIMIT} s: the reset of a peer")
            now = time.monotonic()
            earliest, latest = self.due[told[0][0]]
            if now < earliest:
                early.append(f"{earliest - now:.3f} s early")
            if now > latest:
                late.append(f"{now - latest:.3f} s later than it may be")
        self.waiting.close()
        return early, late


def reset_a_round(toxi, links, seconds):
    """So many links at once, which all are reset so many seconds after their start."""
    watch = Watch()
    pairs = []
    with concurrent.futures.ThreadPoolExecutor(links) as threads:
        meanwhile = [threads.submit(watch.run, 2 * links)]
        for place in range(links):
            begun = time.monotonic()
            pair = toxi.link()
            pairs.append((pair, kind_of(place)))
            for end, peer in zip(*pairs[-1]):
                watch.add(end, begun + seconds, time.monotonic() + seconds + LATE)
                if peer.first:
                    peer.first(end)
                if peer.meanwhile:
                    meanwhile.append(threads.submit(peer.meanwhile, end))
        early, late = meanwhile[0].result()
        check(not early, f"{len(early)} peers were told too early, the first {early[:1]}")
        check_in_time(not late, f"{len(late)} peers were told too late, the first {late[:1]}")
        for future in meanwhile:
            future.result()
    for pair, kind in pairs:
        for end, peer in zip(pair, kind):
            if peer.later:
                peer.later(end)
            end.close()


def were_reset(toxi, links):
    """Waits for the lines of so many links. A stream is broken where a write of it waited for room."""
    wait_until(lambda: len(toxi.ended_links()) == links, f"the lines of {links} links")
    ends = Counter((line[3], line[5]) for line in toxi.ended_links().values())
    want = {("closed", "reset"), ("closed", "broken"), ("broken", "reset"), ("broken", "broken")}
    check(set(ends) == want, f"the links ended as {ends}")


@case(1800, ("reset_peer", "timeout = 1000"))
def each_kind_of_peer_is_reset(toxi):
    """300 links at once, six times."""
    for number in range(1, 7):
        reset_a_round(toxi, 300, 1)
        were_reset(toxi, 300 * number)


@case(300, ("reset_peer", "timeout = 1000"), host="::1")
def each_kind_of_peer_is_reset_over_ipv6(toxi):
    reset_a_round(toxi, 300, 1)
    were_reset(toxi, 300)


@case(1, ("reset_peer", "timeout = 200"), stream="upstream")
def upstream_that_has_shut_is_reset(toxi):
    """The stream towards the client has closed, so the client hears that end. The other one is reset."""
    client, server = toxi.link()
    shut_writing(server)
    has_ended(client)
    is_reset(server)
    client.close()
    server.close()
    toxi.ended(1, 0, "reset", 0, "closed")


@case(1, ("reset_peer", "timeout = 200"))
def reset_drops_what_has_no_room(toxi):
    """The client reads what it had got by the reset. The upstream said more than that."""
    client, server = toxi.link()
    server.sendall(SAID)
    check(read_count(client, len(SAID)) == SAID, "the client heard other bytes than the upstream said")
    sent = 0
    with contextlib.suppress(ConnectionResetError):
        while True:
            sent += server.send(BLOCK)
    heard = is_reset(client)
    said = BLOCK * (len(heard) // len(BLOCK) + 1)
    check(said.startswith(heard), "the client heard other bytes than the upstream said")
    check(len(heard) < sent, "the client heard everything")
    client.close()
    server.close()


@case(1, ("reset_peer", f"after = {HELD}"))
def reset_behind_so_many_bytes_waits_for_a_peer(toxi):
    """The client doesn't read, so the socket hasn't taken so many bytes. Once it reads, it hears no more than these, and is reset."""
    client, server = toxi.link()
    waiting = select.poll()
    waiting.register(client, 0)
    with concurrent.futures.ThreadPoolExecutor(1) as threads:
        flooding = threads.submit(flood, server)
        check(not waiting.poll(500), "the client was reset before it read")
        heard = is_reset(client)
        flooding.result()
    client.close()
    server.close()
    check((BLOCK * (HELD // len(BLOCK) + 1))[:HELD].startswith(heard), "the client heard other bytes than the first ones")
    toxi.ended(1, 0, "closed", HELD, "reset")


@case(1)
def failed_write_resets_both(toxi):
    """The client leaves while its bytes wait, so no end of it comes through, and resets what the upstream says to it."""
    client, server = toxi.link()
    send_until_full(client)
    reset(client)
    # Not once: what comes before the client's reset is written without a fault.
    flood(server)
    check(read_all(server), "the upstream heard nothing")
    server.close()
