"""What links cost the program: memory, descriptors, threads, processor time and wake-ups."""
import os
import re
import time

import proxies
from bursts import Burst, listen

LATENCY = proxies.rule("latency", "latency = 20")
JITTER = proxies.rule("latency", "latency = 20, jitter = 10")


def wake_ups(pid):
    """How often each thread of a process has gone to sleep so far."""
    found = {}
    for thread in os.listdir(f"/proc/{pid}/task"):
        with open(f"/proc/{pid}/task/{thread}/status") as file:
            found[thread] = int(re.search(r"voluntary_ctxt_switches:\s+(\d+)", file.read())[1])
    return found


def idle_links(folder, name, links, script, seconds=10):
    """What links cost that are open and silent, each after one byte."""
    with listen() as listener:
        proxy = proxies.toxi(folder, listener.getsockname()[1], name, script)
        pid = proxy.process.pid
        time.sleep(0.5)
        memory, descriptors = proxies.memory(pid), proxies.descriptors(pid)
        burst = Burst(proxy.port, listener, links, True)
        reached, _ = burst.reach(links)
        time.sleep(2)
        used, slept = proxies.seconds_used(pid), wake_ups(pid)
        time.sleep(seconds)
        used = proxies.seconds_used(pid) - used
        woken = sorted((count - slept[thread] for thread, count in wake_ups(pid).items() if count > slept.get(thread, count)), reverse=True)
        each = (proxies.memory(pid) - memory) / links / 1e3
        held = (proxies.descriptors(pid) - descriptors) / links
        print(f"  {reached} of {links} links: {each:.1f} KB and {held:.0f} descriptors each, {used / seconds * 100:.2f} % of a core, wake-ups of threads in {seconds} s: {woken[:4] or 'none'}", flush=True)
        burst.close()
        proxy.stop()


def waiting_link(load, folder, name, seconds=10):
    """What a link costs that waits for an instant an hour away."""
    upstream = load.upstream("echo")
    proxy = proxies.toxi(folder, upstream.port, name, proxies.rule("latency", "latency = 3600000"))
    ping = load.start("ping", proxy.port, 1)
    time.sleep(1)
    used = proxies.seconds_used(proxy.process.pid)
    time.sleep(seconds)
    used = proxies.seconds_used(proxy.process.pid) - used
    print(f"  a link that waits for {seconds} s: {used / seconds * 100:.2f} % of a core", flush=True)
    ping.kill()
    proxy.stop()
    upstream.stop()


def busy_link(load, folder, name, megabytes=500):
    """What memory a link takes while it carries bytes."""
    upstream = load.upstream("exchange-server", megabytes * 1_000_000)
    proxy = proxies.toxi(folder, upstream.port, name)
    pid = proxy.process.pid
    idle = peak = proxies.memory(pid)
    transfer = load.start("exchange", proxy.port, megabytes * 1_000_000)
    while transfer.poll() is None:
        peak = max(peak, proxies.memory(pid))
        time.sleep(0.01)
    print(f"  one link that carries {megabytes} MB each way: {(peak - idle) / 1e6:.1f} MB above an idle proxy", flush=True)
    proxy.stop()
    upstream.stop()


def links_at_once(load, folder, name, links=1000):
    upstream = load.upstream("echo")
    proxy = proxies.toxi(folder, upstream.port, name)
    before = time.monotonic()
    broken = load.run("many", proxy.port, links, 10, 1024)[0]
    print(f"  {links} links at once, 10 times 1 KB each: {broken} broken, {time.monotonic() - before:.1f} s", flush=True)
    proxy.stop()
    upstream.stop()


def links_in_turn(load, folder, name, links=100_000):
    """Memory, threads and descriptors before and behind many links."""
    upstream = load.upstream("echo")
    proxy = proxies.toxi(folder, upstream.port, name)
    pid = proxy.process.pid

    def held():
        time.sleep(1)
        return f"{proxies.memory(pid) / 1e6:.1f} MB, {proxies.threads(pid)} threads, {proxies.descriptors(pid)} descriptors"

    load.run("series", proxy.port, 100, 1024)
    first = held()
    before = time.monotonic()
    broken = load.run("series", proxy.port, links, 1024)[0]
    seconds = time.monotonic() - before
    print(f"  {links} links in turn: {broken} broken, {seconds:.1f} s; {first} before, {held()} behind them", flush=True)
    proxy.stop()
    upstream.stop()


def measure(load, folder):
    for name in proxies.ENGINES:
        print(f" {name}")
        for what, script in (("no toxic", ""), ("a latency", LATENCY), ("a latency that draws", JITTER)):
            print(f"  each with {what}:")
            idle_links(folder, name, 1000, script)
        if name == "workers":
            idle_links(folder, name, 100, "")
            idle_links(folder, name, proxies.most_links(), "")
        waiting_link(load, folder, name)
        busy_link(load, folder, name)
        links_at_once(load, folder, name)
        links_in_turn(load, folder, name)
