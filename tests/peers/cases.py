"""Single links: what clients and upstreams do, and how each link must end then.

The line of a link follows from the rules: a source that ends or is reset closes its stream, and shuts the target's
writing half; a failed write breaks its stream, and resets both sockets. The steps of a case are in an order in which only
one of these can happen. Where a count of bytes is a range, the case says why.
"""
import threading
import time

from .ends import (
    APERIODIC,
    BLOCK,
    are_quiet,
    flood,
    has_ended,
    is_reset,
    read_all,
    read_count,
    read_until_gone,
    reset,
    send_if_taken,
    send_more,
    send_until_ended,
    send_until_full,
    send_until_refused,
    send_until_told,
    shut_writing,
)
from plain.manual import is_applied, words_of_seed
from .registry import case
from .served import SEED
from .waiting import check, check_in_time


@case(1)
def client_resets_while_it_sends(toxi):
    """The reset drops what the proxy has not read, and nobody can tell how much. What it read arrives, and then the end."""
    client, server = toxi.link()
    client.sendall(BLOCK)
    reset(client)
    heard = read_all(server)
    check(BLOCK.startswith(heard), "the upstream heard other bytes than the client sent")
    server.close()
    toxi.ended(1, len(heard), "closed", 0, "closed")


@case(1)
def client_resets_while_it_reads(toxi):
    """The system takes bytes that the client doesn't get, so the count lies between those read and those sent.

    The upstream hears an end once the proxy has met the reset. What it sends then can't be written.
    """
    client, server = toxi.link()
    client.sendall(b"hello")
    read_count(server, 5)
    server.sendall(BLOCK)
    check(read_count(client, 1000) == BLOCK[:1000], "the client heard other bytes than the upstream sent")
    reset(client)
    has_ended(server)
    send_more(server)
    toxi.ended(1, 5, "closed", range(1000, len(BLOCK) + 1), "broken")
    server.close()


@case(1)
def upstream_resets_while_it_sends(toxi):
    """A reset source closes its stream, so the client gets what the proxy read, and then an end."""
    client, server = toxi.link()
    client.sendall(b"hello")
    read_count(server, 5)
    server.sendall(BLOCK)
    reset(server)
    heard = read_all(client)
    check(BLOCK.startswith(heard), "the client heard other bytes than the upstream sent")
    client.close()
    toxi.ended(1, 5, "closed", len(heard), "closed")


@case(1)
def upstream_resets_while_it_reads(toxi):
    """As before, with the other stream: the client hears the end, and a write of what it sends then fails."""
    client, server = toxi.link()
    client.sendall(BLOCK)
    check(read_count(server, 1000) == BLOCK[:1000], "the upstream heard other bytes than the client sent")
    reset(server)
    has_ended(client)
    send_more(client)
    toxi.ended(1, range(1000, len(BLOCK) + 1), "broken", 0, "closed")
    client.close()


@case(2)
def upstream_never_reads(toxi):
    """The client has left, but its bytes still wait, so the link goes on until the upstream leaves. Others aren't held up."""
    client, server = toxi.link()
    sent = send_until_full(client)
    client.close()
    other, its_server = toxi.link()
    other.sendall(b"hello")
    check(read_count(its_server, 5) == b"hello", "another link carried other bytes")
    its_server.close()
    check(read_all(other) == b"", "another link answered bytes that nobody sent")
    other.close()
    toxi.ended(2, 5, "closed", 0, "closed")
    check(1 not in toxi.ended_links(), "a link ended while its bytes waited")
    # Bytes that the upstream never read make its close a reset.
    server.close()
    toxi.ended(1, range(1, sent), "broken", 0, "closed")


@case(1)
def upstream_shuts_its_writing_half(toxi):
    client, server = toxi.link()
    server.sendall(b"hello")
    shut_writing(server)
    check(read_all(client) == b"hello", "the client heard other bytes than the upstream sent")
    client.sendall(BLOCK)
    client.close()
    check(read_all(server) == BLOCK, "the upstream heard other bytes than the client sent")
    server.close()
    toxi.ended(1, len(BLOCK), "closed", 5, "closed")


@case(1)
def client_shuts_its_writing_half(toxi):
    client, server = toxi.link()
    client.sendall(b"hello")
    shut_writing(client)
    check(read_all(server) == b"hello", "the upstream heard other bytes than the client sent")
    server.sendall(BLOCK)
    server.close()
    check(read_all(client) == BLOCK, "the client heard other bytes than the upstream sent")
    client.close()
    toxi.ended(1, 5, "closed", len(BLOCK), "closed")


@case(3)
def upstream_dies_and_comes_back(toxi):
    client, server = toxi.link()
    server.sendall(b"hello")
    read_count(client, 5)
    toxi.upstream.down()
    server.close()
    check(read_all(client) == b"", "bytes of an upstream that is dead")
    client.close()
    toxi.ended(1, 0, "closed", 5, "closed")
    for number in (2, 3):
        with toxi.client() as client:
            has_ended(client)
        toxi.ended(number, 0, "broken", 0, "broken")
    toxi.upstream.up()


@case(200)
def clients_vanish(toxi):
    """Each second one leaves by a reset. They come 40 at a time, which the queues of both listeners hold."""
    for first in range(1, 201, 40):
        for number in range(first, first + 40):
            with toxi.client() as client:
                if number % 2:
                    reset(client)
        for _ in range(40):
            with toxi.upstream.accept() as server:
                check(read_all(server) == b"", "bytes of a client that sent none")
    for number in range(1, 201):
        toxi.ended(number, 0, "closed", 0, "closed")


@case(1)
def output_is_closed(toxi):
    """Its reader is gone, so lines are dropped. Links go on."""
    toxi.output.close()
    client, server = toxi.link()
    client.close()
    check(read_all(server) == b"", "bytes of a client that sent none")
    server.close()


@case(9)
def descriptors_lack(toxi):
    """A link takes two descriptors: the client's and the upstream's. Where there are fewer, clients wait, and none is broken."""
    clients = []
    for more in (1, 0):
        toxi.allow_descriptors(more)
        came = [toxi.client() for _ in range(4 + more)]
        for client in came:
            client.sendall(b"a")
        clients += came
        are_quiet(*clients)
    toxi.allow_descriptors(None)
    heard = toxi.upstream.echo_bytes(clients)
    check(heard == [b"a"] * 9, f"clients that waited heard {heard}")
    for client in clients:
        client.close()
    toxi.ended_alike(9, [(1, "closed")], [(1, "closed")])


@case(2, ("timeout", "timeout = 0"))
def silent_upstream(toxi):
    """The client hears nothing, whether the upstream stays or leaves. The link ends when both have left."""
    for number in (1, 2):
        client, server = toxi.link()
        client.sendall(b"hello")
        check(read_count(server, 5) == b"hello", "the upstream heard other bytes than the client sent")
        server.sendall(b"world")
        if number == 1:
            server.close()
        are_quiet(client)
        check(number not in toxi.ended_links(), "the link ended before the client left")
        client.close()
        if number == 2:
            check(read_all(server) == b"", "bytes after the client's last one")
            server.close()
        toxi.ended(number, 5, "closed", 0, "open")


@case(1, ("limit_data", "bytes = 3"))
def limit_in_a_flood(toxi):
    """The link closes with the third byte, though the upstream goes on. The client hears an end and no reset."""
    client, server = toxi.link()
    client.sendall(b"hello")
    read_count(server, 5)
    send_until_ended(server)
    server.close()
    check(read_all(client) == BLOCK[:3], "the client heard other bytes than the upstream's first three")
    client.close()
    toxi.ended(1, 5, "closed", 3, "closed")


@case(8, ("limit_data", "bytes = 3"), toxicity=500)
def limit_by_the_seed(toxi):
    """Whether a link meets the toxic follows from the seed, its number and the stream."""
    for number in range(1, 9):
        client, server = toxi.link()
        server.sendall(b"hello")
        shut_writing(server)
        words = words_of_seed(SEED, number, "downstream")
        want = b"hel" if is_applied(words, 0, 500) else b"hello"
        heard = read_all(client)
        check(heard == want, f"link {number}: the client heard {heard}, not {want}")
        client.close()
        server.close()
        toxi.ended(number, 0, "closed", len(want), "closed")


@case(2, ("reset_peer", "timeout = 50"))
def reset_by_a_rule(toxi):
    """The first upstream says nothing. What the second one says at once comes whole, or not at all if 50 ms have passed."""
    for number, said in ((1, b""), (2, b"hello")):
        begun = time.monotonic()
        client, server = toxi.link()
        server.sendall(said)
        heard = is_reset(client)
        check(time.monotonic() - begun >= 0.05, "the link was reset too early")
        check(heard in (b"", said), f"the client heard {heard}")
        is_reset(server)
        client.close()
        server.close()
        toxi.ended(number, 0, "closed", len(heard), "reset")


@case(1, ("limit_data", "bytes = 3"))
def limit_is_told_to_a_sender(toxi):
    """An upstream that only sends learns at once that the link has ended."""
    client, server = toxi.link()
    send_until_refused(server)
    check(read_all(client) == BLOCK[:3], "the client heard other bytes than the upstream's first three")
    client.close()
    server.close()
    toxi.ended(1, 0, "closed", 3, "closed")


@case(1)
def fault_is_told_to_a_sender(toxi):
    """A client whose bytes nobody reads learns at once that its upstream was reset."""
    client, server = toxi.link()
    sent = send_until_full(client)
    reset(server)
    send_until_refused(client)
    client.close()
    toxi.ended(1, range(1, sent), "broken", 0, "closed")


@case(20, ("limit_data", "bytes = 3"), stream="upstream")
def limit_is_told_to_a_target_that_sends(toxi):
    """The client's third byte closes the link in the middle of a flood. The upstream learns that, though it reads nothing.

    How the other stream ends depends on whether it had bytes to write.
    """
    for _ in range(20):
        client, server = toxi.link()
        flood(server, client, 0.05)
        client.send(b"abc")
        begun = time.monotonic()
        send_until_refused(server)
        check_in_time(time.monotonic() - begun < 1, "the upstream learnt late that the link has ended")
        client.close()
        server.close()


@case(200, ("limit_data", "bytes = 3"), stream="upstream")
def limit_leaves_no_gap(toxi):
    """The client's third byte closes the link as the upstream begins to flood. The client hears a front of the flood.

    How the other stream ends depends on whether it had bytes to write.
    """
    for _ in range(200):
        client, server = toxi.link()
        client.sendall(b"abc")
        sender = threading.Thread(target=send_if_taken, args=(server, APERIODIC))
        sender.start()
        heard = read_until_gone(client)
        sender.join()
        check(APERIODIC.startswith(heard), "the client heard the upstream's bytes with a gap")
        client.close()
        server.close()


@case(2, ("reset_peer", "timeout = 300"))
def reset_of_one_that_hardly_reads(toxi):
    """The first client reads nothing, the second a little. Neither holds up the reset, which breaks off a write that waits.

    Of the second one all may have been written by then.
    """
    for number, reads in ((1, False), (2, True)):
        begun = time.monotonic()
        client, server = toxi.link()
        due = time.monotonic() + 0.3
        sent = send_until_told(server, client if reads else None)
        told = time.monotonic()
        check(told - begun >= 0.3, "the link was reset too early")
        check_in_time(told - due < 0.2, f"the reset came {1000 * (told - due):.0f} ms late")
        if not reads:
            toxi.ended(number, 0, "closed", range(1, sent), "broken")
        send_until_refused(client)
        client.close()
        server.close()


@case(1, name="the\nshop")
def name_of_two_lines(toxi):
    """Its lines have the line feed as a code."""
    client, server = toxi.link()
    client.close()
    check(read_all(server) == b"", "bytes of a client that sent none")
    server.close()
    toxi.ended(1, 0, "closed", 0, "closed")


@case(2)
def listener_that_does_not_wait(toxi):
    """Whoever shares the listener has set it to answer at once. The accept before that still waits for the first client."""
    with toxi.listener() as listener:
        listener.setblocking(False)
    for number in (1, 2):
        client, server = toxi.link()
        client.close()
        check(read_all(server) == b"", "bytes of a client that sent none")
        server.close()
        toxi.ended(number, 0, "closed", 0, "closed")
        time.sleep(0.05)
