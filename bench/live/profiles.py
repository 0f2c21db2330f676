"""Where the processor time of workers and of haproxy goes while they pass small messages, by `perf record`. It needs root."""
import os
import re
import subprocess
import threading
import time

import proxies
import services

SECONDS = 2
# What the kernel calls the functions that pass a message. Several pieces are written by the second one.
CALLS = {"write": ("__sys_sendto", "___sys_sendmsg"), "read": ("__sys_recvfrom",), "wait": ("do_epoll_wait",)}


def reported(record, *options):
    """The lines of a report of a record: the percentage of the time, and what has it."""
    command = ["perf", "report", "--input", record, "--stdio", "--call-graph", "none", *options]
    said = subprocess.run(command, check=True, stdout=subprocess.PIPE, stderr=subprocess.DEVNULL, text=True).stdout
    rows = (re.match(r"\s*([\d.]+)%.*?(\S+)\s*$", line) for line in said.splitlines() if not line.startswith("#"))
    return [(float(row[1]), row[2]) for row in rows if row]


def shares(folder, process):
    """The shares of a process: of the kernel, of the calls that pass a message, and of the program and its libraries."""
    record = os.path.join(folder, "perf.data")
    command = ["perf", "record", "--call-graph", "fp", "--output", record, "--pid", str(process.pid), "--", "sleep", str(SECONDS)]
    subprocess.run(command, check=True, stdout=subprocess.DEVNULL, stderr=subprocess.DEVNULL)
    places = {place: share for share, place in reported(record, "--no-children", "--sort", "dso")}
    kernel = sum(share for place, share in places.items() if place.startswith("[kernel"))
    program = sum(share for place, share in places.items() if place in (os.path.basename(proxies.TOXI), "haproxy"))
    within = {name: share for share, name in reported(record, "--children", "--sort", "sym")}
    calls = ", ".join(f"{what} {sum(within.get(name, 0) for name in names):.0f}" for what, names in CALLS.items())
    return f"kernel {kernel:.0f} % ({calls}), program {program:.0f} %, libraries {100 - kernel - program:.0f} %"


def compare(folder, port, what, rate):
    """The shares under one load, through workers and through haproxy."""
    for proxy in (proxies.haproxy(folder, port), proxies.toxi(folder, port, "workers")):
        load = threading.Thread(target=rate, args=(proxy.port,))
        load.start()
        time.sleep(0.3)
        print(f"{what}: {proxy.name}: {shares(folder, proxy.process)}", flush=True)
        load.join()
        proxy.stop()


def measure(_, folder):
    server, port = services.nginx(folder)
    compare(folder, port, "wrk, small answers, 16 links", services.wrk("small", 16))
    server.terminate()
    server.wait()
    server, port = services.start_redis(folder)
    for pipeline in (1, 16):
        compare(folder, port, f"redis-benchmark GET, 50 links, pipeline {pipeline}", services.redis(50, pipeline, requests=300_000))
    server.terminate()
    server.wait()
