"""Toxics at work on real links, and links that stand still. No instant is early; how late it may be is the system's."""
import socket
import time

from .ends import BLOCK, are_quiet, has_ended, is_reset, read_all, read_count, send_until_full, shut_writing
from .registry import case
from .waiting import LIMIT, check, check_in_time, wait_until

# How late a byte or an end may come in a test, in seconds. A busy machine is slow.
LATE = 0.5


def came_in_time(since, seconds, what):
    took = time.monotonic() - since
    check(took >= seconds, f"{what} came {1000 * (seconds - took):.1f} ms early")
    check_in_time(took < seconds + LATE, f"{what} came {1000 * (took - seconds):.0f} ms late")


def leave(toxi, client, server, said):
    """The link ends by both its peers, and has carried so many bytes downstream."""
    client.close()
    read_all(server)
    server.close()
    toxi.ended(1, 0, "closed", said, "closed")


@case(1, ("latency", "latency = 100"))
def latency_at_work(toxi):
    client, server = toxi.link()
    for _ in range(3):
        begun = time.monotonic()
        server.sendall(b"hello")
        check(read_count(client, 5) == b"hello", "the client heard other bytes than the upstream said")
        came_in_time(begun, 0.1, "a delayed byte")
    leave(toxi, client, server, 15)


@case(1, ("bandwidth", "rate = 100"))
def bandwidth_at_work(toxi):
    """100 bytes take a millisecond."""
    client, server = toxi.link()
    said = BLOCK[:30_000]
    begun = time.monotonic()
    server.sendall(said)
    check(read_count(client, 10_000) == said[:10_000], "the client heard other bytes than the upstream said")
    came_in_time(begun, 0.1, "the first third")
    check(read_count(client, 20_000) == said[10_000:], "the client heard other bytes than the upstream said")
    came_in_time(begun, 0.3, "the last byte")
    leave(toxi, client, server, 30_000)


@case(1, ("slicer", "average_size = 10, delay = 20000"))
def slicer_at_work(toxi):
    """Ten bytes each 20 milliseconds."""
    client, server = toxi.link()
    said = BLOCK[:95]
    begun = time.monotonic()
    server.sendall(said)
    heard = b""
    while len(heard) < len(said):
        heard += client.recv(100)
        came_in_time(begun, 0.02 * (-(-len(heard) // 10)), f"byte {len(heard)}")
    check(heard == said, "the client heard other bytes than the upstream said")
    leave(toxi, client, server, 95)


@case(1, ("slow_close", "delay = 300"))
def slow_close_at_work(toxi):
    """The bytes come at once, the end 300 milliseconds after the upstream's."""
    client, server = toxi.link()
    begun = time.monotonic()
    server.sendall(b"hello")
    shut_writing(server)
    check(read_count(client, 5) == b"hello", "the client heard other bytes than the upstream said")
    came_in_time(begun, 0, "the last byte")
    has_ended(client)
    came_in_time(begun, 0.3, "the end")
    leave(toxi, client, server, 5)


@case(1, ("timeout", "timeout = 300"))
def timeout_at_work(toxi):
    """Nothing comes through, and both peers hear an end when the time is over."""
    begun = time.monotonic()
    client, server = toxi.link()
    server.sendall(b"hello")
    are_quiet(client)
    has_ended(client)
    came_in_time(begun, 0.3, "the end")
    has_ended(server)
    client.close()
    server.close()
    toxi.ended(1, 0, "closed", 0, "closed")


@case(1, ("latency", "latency = 300, from = 1000"))
def latency_from_the_first_second_on(toxi):
    client, server = toxi.link()
    for wait, seconds in ((0, 0), (1, 0.3)):
        time.sleep(wait)
        begun = time.monotonic()
        server.sendall(b"hello")
        check(read_count(client, 5) == b"hello", "the client heard other bytes than the upstream said")
        came_in_time(begun, seconds, f"a byte {wait} s after the link's start")
    leave(toxi, client, server, 10)


def hangs(toxi, client, server):
    """What the upstream says doesn't come, and the other direction goes on."""
    server.sendall(BLOCK)
    are_quiet(client)
    client.sendall(b"hello")
    check(read_count(server, 5) == b"hello", "the upstream heard other bytes than the client said")
    client.close()
    read_all(server)
    server.close()


@case(1, ("timeout", "after = 5"))
def timeout_behind_so_many_bytes(toxi):
    """The answer is cut behind its fifth byte, and nothing is shut."""
    client, server = toxi.link()
    server.sendall(b"hello there")
    check(read_count(client, 5) == b"hello", "the client heard other bytes than the upstream said")
    hangs(toxi, client, server)
    toxi.ended(1, 5, "closed", 5, "open")


@case(1, ("timeout", "from = 500"))
def timeout_that_begins_later(toxi):
    client, server = toxi.link()
    server.sendall(b"hello")
    check(read_count(client, 5) == b"hello", "the client heard other bytes than the upstream said")
    time.sleep(0.5)
    hangs(toxi, client, server)
    toxi.ended(1, 5, "closed", 5, "open")


@case(1, ("timeout", "timeout = 500, after = 5"))
def timeout_behind_so_many_bytes_that_closes(toxi):
    """Both peers hear an end when the time is over."""
    begun = time.monotonic()
    client, server = toxi.link()
    server.sendall(b"hello there")
    check(read_count(client, 5) == b"hello", "the client heard other bytes than the upstream said")
    has_ended(client)
    came_in_time(begun, 0.5, "the end")
    has_ended(server)
    client.close()
    server.close()
    toxi.ended(1, 0, "closed", 5, "closed")


@case(1, ("reset_peer", "after = 1000"))
def reset_behind_so_many_bytes(toxi):
    """The client hears just these bytes, and then both peers are reset."""
    client, server = toxi.link()
    server.sendall(BLOCK[:1500])
    check(is_reset(client) == BLOCK[:1000], "the client heard other bytes than the first 1000 before the reset")
    is_reset(server)
    toxi.ended(1, 0, "closed", 1000, "reset")


@case(1, ("reset_peer", "timeout = 500, after = 65536"))
def reset_behind_so_many_bytes_at_its_instant(toxi):
    begun = time.monotonic()
    client, server = toxi.link()
    server.sendall(BLOCK + b"hello")
    check(is_reset(client) == BLOCK, "the client heard other bytes than the first 65536 before the reset")
    came_in_time(begun, 0.5, "the reset")
    is_reset(server)
    toxi.ended(1, 0, "closed", len(BLOCK), "reset")


@case(2)
def both_directions_stand_still(toxi):
    """Both peers send and neither reads. Another link isn't held up. Once both read, nothing is lost."""
    client, server = toxi.link()
    sent = send_until_full(client), send_until_full(server)
    other, its_server = toxi.link()
    other.sendall(b"hello")
    check(read_count(its_server, 5) == b"hello", "another link carried other bytes")
    other.close()
    read_all(its_server)
    its_server.close()
    toxi.ended(2, 5, "closed", 0, "closed")
    check(1 not in toxi.ended_links(), "a link ended while its peers live")
    for end in (client, server):
        end.settimeout(LIMIT)
    for reader, count in ((server, sent[0]), (client, sent[1])):
        heard = read_count(reader, count)
        check(heard == (BLOCK * (count // len(BLOCK) + 1))[:count], "a link that stood still lost bytes")
    client.close()
    read_all(server)
    server.close()
    toxi.ended(1, sent[0], "closed", sent[1], "closed")


@case(1)
def upstream_that_never_answers(toxi):
    """Its queue is full, so a connect to it waits, and the client hears nothing. Once there is room the link is carried."""
    toxi.upstream.down()
    toxi.upstream.up(0)
    queued = socket.create_connection((toxi.upstream.host, toxi.upstream.port))
    client = toxi.client()
    client.sendall(b"hello")
    are_quiet(client)
    wait_until(lambda: toxi.descriptors() != toxi.at_rest, "the link")
    check(not toxi.ended_links(), "the link ended while its upstream was connected")
    toxi.upstream.accept().close()
    queued.close()
    server = toxi.upstream.accept()
    check(read_count(server, 5) == b"hello", "the upstream heard other bytes than the client said")
    toxi.upstream.up()
    client.close()
    read_all(server)
    server.close()
    toxi.ended(1, 5, "closed", 0, "closed")
