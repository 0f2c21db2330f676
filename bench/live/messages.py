"""What a small message costs a proxy: its processor time for a request and the answer, and the instructions of its program and libraries.

A rate is of the clients, the servers and the proxy together, and differs by a fifth between two runs. The processor time of the proxy alone differs less, and a count of
instructions hardly at all. The instructions are counted by valgrind, so without those of the system, and are left out where there is no valgrind.
"""
import os
import re
import shutil
import statistics

import proxies
import services

TURNS = 7
SECONDS = 2
# How many requests are counted between the start of a proxy under valgrind and its end. The difference is without what a start costs.
COUNTED = (5_000, 25_000)


def wrk(links):
    """The requests that wrk makes."""
    def requests(port):
        return int(re.search(r"(\d+) requests in", services.said_by_wrk(port, "small", links, SECONDS))[1])
    return requests


def redis(pipeline, batches=100_000):
    """Batches of so many requests. Each is one message there, and one back."""
    def requests(port):
        services.redis(50, pipeline, batches)(port)
        return batches
    return requests


def contenders(folder, port):
    return [proxies.haproxy(folder, port), *(proxies.toxi(folder, port, name) for name in proxies.ENGINES)]


def cost(proxy, requests):
    """Microseconds of a processor for a request."""
    before = proxies.seconds_used(proxy.process.pid)
    count = requests(proxy.port)
    return (proxies.seconds_used(proxy.process.pid) - before) / count * 1e6


def compare(folder, port, what, requests):
    """The median of turns that alternate."""
    rivals = contenders(folder, port)
    costs = {proxy.name: [] for proxy in rivals}
    for _ in range(TURNS):
        for proxy in rivals:
            costs[proxy.name].append(cost(proxy, requests))
    for proxy in rivals:
        proxy.stop()
    median = {name: statistics.median(each) for name, each in costs.items()}
    said = ", ".join(f"{name} {value:.1f} ({value / median['haproxy']:.2f}; {min(costs[name]):.1f} to {max(costs[name]):.1f})" for name, value in median.items())
    print(f"{what}, microseconds of a processor for a request: {said}", flush=True)


def counted(folder, port, requests):
    """The instructions of workers from their start to their end, with so many requests between."""
    out = os.path.join(folder, "instructions")
    valgrind = ["valgrind", "--quiet", "--tool=callgrind", f"--callgrind-out-file={out}"]
    proxy = proxies.toxi(folder, port, "workers", before=valgrind)
    services.said_by("redis-benchmark", "-p", str(proxy.port), "-c", "10", "-n", str(requests), "-t", "get", "-q")
    proxy.stop()
    with open(out) as file:
        return int(re.search(r"^(?:summary|totals): (\d+)", file.read(), re.M)[1])


def instructions(folder, port):
    few, many = (counted(folder, port, requests) for requests in COUNTED)
    print(f"workers, instructions of the program and its libraries for a request of redis-benchmark: {(many - few) / (COUNTED[1] - COUNTED[0]):,.0f}", flush=True)


def measure(_, folder):
    server, port = services.nginx(folder)
    for links in (16, 400):
        compare(folder, port, f"wrk, small answers, {links} links", wrk(links))
    server.terminate()
    server.wait()
    server, port = services.start_redis(folder)
    for pipeline in (1, 16):
        compare(folder, port, f"redis-benchmark GET, 50 links, pipeline {pipeline}", redis(pipeline))
    if shutil.which("valgrind"):
        instructions(folder, port)
    server.terminate()
    server.wait()
