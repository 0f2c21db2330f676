"""What a peer does at the moment when it matters: urgent data, a reset, and a flood beside others."""
import os
import re
import socket
import struct
import threading
import time

from .ends import read_all, read_count, reset, shut_writing
from .probes import processor_time
from .registry import case, start
from .served import Engine
from .shim import environment, with_shim
from .stops import ALWAYS, LINK, Stopped, log_of
from .waiting import LIMIT, Failed, check, check_in_time

SLOW = """[[rule]]
proxy = "shop"
first = 1
[[rule.toxic]]
type = "latency"
attributes = { latency = 3600000 }
"""
# How long a connect takes, and when the link is reset, in milliseconds.
PAUSE = 500
RESETS = 300
RESET = f"""[[rule]]
proxy = "shop"
first = 1
[[rule.toxic]]
type = "reset_peer"
attributes = {{ timeout = {RESETS} }}
"""
READING = re.compile(r"(\d+) (piece \d+|end|end reset|wrote .*)")
# No case takes so long, in microseconds.
LONG = 60 * 1_000_000
BLOCK = bytes(1 << 16)
BULK = 64 << 20
# One turn reads at most 32 times.
MOST_READS = 40


@case(1)
def urgent_data_hold_up_nothing(toxi):
    """What stands before and behind an urgent byte comes at once, in both streams. The byte itself isn't passed."""
    pair = toxi.link()
    for from_end, to_end in (pair, pair[::-1]):
        for _ in range(3):
            from_end.sendall(b"12345")
            from_end.send(b"!", socket.MSG_OOB)
            from_end.sendall(b"6789")
            to_end.settimeout(1)
            try:
                heard = read_count(to_end, 9)
            except TimeoutError:
                raise Failed("bytes behind urgent data didn't come") from None
            check(heard == b"123456789", f"the peer heard {heard}")
            to_end.settimeout(LIMIT)
    client, server = pair
    shut_writing(client)
    check(read_all(server) == b"", "more bytes")
    server.close()
    toxi.ended(1, 27, "closed", 27, "closed")
    client.close()


@start
@with_shim
def upstream_that_resets_was_reached(program, folder):
    """It accepts a connection and resets it before the proxy looks. No second address is tried for the same client, and the log tells
    a reset."""
    logs = os.path.join(folder, "logs-reset")
    told = environment(TOXI_ADDRESSES="127.0.0.1,127.0.0.2", TOXI_CONNECT_PAUSE=200)
    with Stopped(program, folder, upstream_host="shop.test", logs=logs, env=told) as toxi:
        with socket.create_server(("127.0.0.2", toxi.upstream.getsockname()[1])) as other:
            other.settimeout(0.5)
            client = toxi.client()
            reset(toxi.upstream.accept()[0])
            try:
                other.accept()
                raise Failed("the second address was connected for the same client")
            except TimeoutError:
                pass
        check(client.recv(1) == b"", "bytes of an upstream that sent none")
        client.close()
        line = toxi.line()
        check(line == "link shop 1 up 0 closed down 0 closed", f"the line is `{line}`")
        toxi.tell(limit=ALWAYS)
    said = log_of(logs, "downstream")
    check(any(re.fullmatch(r"\d+ end reset", line) for line in said), f"the log tells no reset: {said}")


@start
@with_shim
def reset_counts_from_the_connection(program, folder):
    """The upstream's connect takes longer than the reset's time, so both peers are reset as soon as it ends."""
    with Stopped(program, folder, RESET, env=environment(TOXI_CONNECT_PAUSE=PAUSE)) as toxi:
        begun = time.monotonic()
        client = toxi.client()
        server, _ = toxi.upstream.accept()
        for peer in (client, server):
            try:
                heard = peer.recv(1)
                raise Failed(f"a peer heard {heard} and no reset")
            except ConnectionResetError:
                peer.close()
        took = 1000 * (time.monotonic() - begun)
        check_in_time(took < PAUSE + RESETS, f"the reset came after {took:.0f} ms")
        toxi.tell(limit=ALWAYS)


@start
def reset_of_a_peer_is_logged(program, folder):
    """A source that resets is told from one that ends, in both streams."""
    logs = os.path.join(folder, "logs-peer")
    with Stopped(program, folder, logs=logs) as toxi:
        for number, resets in ((1, "client"), (2, "server"), (3, None)):
            client, server = toxi.link()
            client.sendall(b"a")
            read_count(server, 1)
            if resets:
                reset(client if resets == "client" else server)
            client.close()
            server.close()
            check(toxi.line().startswith(f"link shop {number} "), "another line")
        toxi.tell(limit=ALWAYS)
    for number, stream, ends in ((1, "upstream", "end reset"), (2, "downstream", "end reset"), (3, "upstream", "end")):
        said = [line.split(" ", 1)[1] for line in log_of(logs, stream, number) if READING.fullmatch(line)]
        check(ends in said, f"the log of link {number} {stream} has {said}")
    for number, stream in ((1, "downstream"), (2, "upstream"), (3, "downstream")):
        check(not any("reset" in line for line in log_of(logs, stream, number)), f"the log of link {number} {stream} has a reset")


@start
def link_that_waits_leaves_the_cores_alone(program, folder):
    """Its bytes are due in an hour, so it rests."""
    with Stopped(program, folder, SLOW) as toxi:
        client, server = toxi.link()
        server.sendall(b"later")
        time.sleep(0.2)
        before = processor_time(toxi.process.pid)
        time.sleep(1)
        used = processor_time(toxi.process.pid) - before
        check(used < 50, f"it used {10 * used} ms of a second")
        toxi.tell(limit=ALWAYS)
        client.close()
        server.close()


@start
def log_of_a_stopped_link_has_true_readings(program, folder):
    """A signal ends a link whose bytes are due in an hour. Its log has the instants at which it heard and ended."""
    logs = os.path.join(folder, "logs-stopped")
    with Stopped(program, folder, SLOW, logs=logs) as toxi:
        client, server = toxi.link()
        server.sendall(b"later")
        client.sendall(b"ask")
        read_count(server, 3)
        time.sleep(0.2)
        lines = toxi.tell(limit=ALWAYS)
        check(LINK.fullmatch(lines[0]) and lines[0].endswith("broken"), f"the lines are {lines}")
        client.close()
    for stream in ("upstream", "downstream"):
        readings = [int(line.split(" ")[0]) for line in log_of(logs, stream) if READING.fullmatch(line)]
        check(readings and max(readings) < LONG, f"the log of {stream} has the readings {readings}")


def counted(file):
    """How often sockets were read, and how often events were waited for."""
    with open(file, "rb") as opened:
        return struct.unpack("<QQ", opened.read(16))


def send_bulk(server):
    for _ in range(BULK // len(BLOCK)):
        server.sendall(BLOCK)
    server.close()


def read_quickly(client, count):
    room = bytearray(1 << 18)
    while count > 0:
        got = client.recv_into(room, min(count, len(room)))
        check(got, "the bulk ended too early")
        count -= got


@start
@with_shim
def reads_per_poll_do_not_grow(program, folder):
    """A stream of bulk has one turn between two polls of its worker, however long it lasts."""
    if not Engine.workers:
        return
    counts = os.path.join(folder, "counts")
    with open(counts, "wb") as file:
        file.write(bytes(16))
    with Stopped(program, folder, env=environment(TOXI_COUNTS=counts)) as toxi:
        client, server = toxi.link()
        sender = threading.Thread(target=send_bulk, args=(server,))
        sender.start()
        found = []
        for _ in range(4):
            before = counted(counts)
            read_quickly(client, BULK // 4)
            reads, polls = (after - first for after, first in zip(counted(counts), before))
            found.append(reads / max(polls, 1))
        sender.join()
        client.close()
        toxi.tell(limit=ALWAYS)
    check(0 < max(found) <= MOST_READS, f"reads per poll of one link: {found}")
