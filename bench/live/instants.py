"""How late bytes come that a toxic holds."""
import glob
import os
import random
import selectors
import socket
import tempfile
import time

import proxies


def round_trip(load, folder, name):
    """How late a byte comes back, behind 20 ms and the way itself."""
    upstream = load.upstream("echo")
    proxy = proxies.toxi(folder, upstream.port, name, proxies.rule("latency", "latency = 20"))
    median, high, least = map(float, load.run("ping", proxy.port, 300))
    late = [f"{time - 20_000:.0f}" for time in (least, median, high)]
    print(f"  latency 20, microseconds past 20 ms of a round trip: least {late[0]}, median {late[1]}, 99th percentile {late[2]}", flush=True)
    proxy.stop()
    upstream.stop()


def last_byte(load, folder, name, seconds=10):
    """How late the last byte of a paced transfer comes, and what it costs: 1000 KB/s are a byte each microsecond."""
    size = seconds * 1_000_000
    upstream = load.upstream("exchange-server", size)
    proxy = proxies.toxi(folder, upstream.port, name, proxies.rule("bandwidth", "rate = 1000"))
    used = proxies.seconds_used(proxy.process.pid)
    took = float(load.run("receive", proxy.port, size)[0])
    used = proxies.seconds_used(proxy.process.pid) - used
    print(f"  bandwidth 1000 for {seconds} s: last byte {took - size:.0f} microseconds late, {used / seconds * 100:.1f} % of a core", flush=True)
    proxy.stop()
    upstream.stop()


def paced(load, folder, name, kind, attributes, size, nanoseconds):
    """How late each piece comes, behind the earliest one, at so many nanoseconds a byte."""
    upstream = load.upstream("exchange-server", size)
    proxy = proxies.toxi(folder, upstream.port, name, proxies.rule(kind, attributes))
    parts, median, high, most = load.run("paced", proxy.port, size, nanoseconds)
    print(f"  {kind}, {attributes}: {parts} parts, microseconds late: median {median}, 99th percentile {high}, most {most}", flush=True)
    proxy.stop()
    upstream.stop()


def send_at_random(port, links, seconds):
    """Sends a piece of ten bytes over one of many links each millisecond, and reads what comes back."""
    waiting = selectors.DefaultSelector()
    clients = []
    for _ in range(links):
        client = socket.create_connection(("127.0.0.1", port))
        client.setblocking(False)
        waiting.register(client, selectors.EVENT_READ)
        clients.append(client)
    drawn = random.Random(1)
    end = time.monotonic() + seconds
    while time.monotonic() < end:
        drawn.choice(clients).send(b"0123456789")
        for key, _ in waiting.select(drawn.expovariate(1000)):
            key.fileobj.recv(4096)
    for client in clients:
        client.close()


def writes(logs):
    """How late each write of the logs in a folder was, in microseconds, sorted."""
    late = []
    for name in glob.glob(os.path.join(logs, "*-downstream.log")):
        with open(name) as file:
            for line in file:
                words = line.split()
                if words[1] == "wrote":
                    late.append(int(words[0]) - int(words[3]))
    return sorted(late)


def many_links(load, folder, name, links=1000, seconds=10):
    """How late many links with a latency are that carry pieces at random, by their logs."""
    upstream = load.upstream("echo")
    logs = tempfile.mkdtemp(dir=folder)
    proxy = proxies.toxi(folder, upstream.port, name, proxies.rule("latency", "latency = 100"), ["--log", logs])
    used = proxies.seconds_used(proxy.process.pid)
    send_at_random(proxy.port, links, seconds)
    used = proxies.seconds_used(proxy.process.pid) - used
    time.sleep(1)
    proxy.stop()
    late = writes(logs)
    figures = f"least {late[0]}, median {late[len(late) // 2]}, 99th percentile {late[len(late) * 99 // 100]}, most {late[-1]}"
    print(f"  {links} links with a latency of 100 ms, {len(late)} writes, microseconds late: {figures}; {used / seconds * 100:.1f} % of a core", flush=True)
    upstream.stop()


def measure(load, folder):
    for name in proxies.ENGINES:
        print(f" {name}")
        round_trip(load, folder, name)
        last_byte(load, folder, name)
        paced(load, folder, name, "bandwidth", "rate = 1000", 5_000_000, 1000)
        # A read takes at most 16,384 bytes, so no piece is cut short.
        paced(load, folder, name, "slicer", "average_size = 128, delay = 2000", 262_144, 15_625)
        many_links(load, folder, name)
