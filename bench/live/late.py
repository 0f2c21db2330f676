"""How late both ways write under a `latency` of 20 ms: what `replay` says of the link's log, and what a round trip takes past 20 ms.

One link is measured, alone or among others that do the same, and again beside as many busy processes as there are cores. A figure is of 300 round trips.
`nice -n -20 bench/live/measure late` shows what priority does: the busy processes have none of it.
"""
import os
import subprocess
import tempfile
import time

import proxies

ROUNDS = 300
LATENCY = 20


def without_priority():
    os.setpriority(os.PRIO_PROCESS, 0, 0)


def said_by(*command):
    return subprocess.run(command, check=True, stdout=subprocess.PIPE, text=True).stdout


def measured(load, port, links):
    """Median and 99th percentile of a link's round trips among so many links, in microseconds past the latency."""
    others = [load.start("ping", port, 1_000_000) for _ in range(links - 1)]
    time.sleep(0.5)
    median, high, _ = load.run("ping", port, ROUNDS)
    for other in others:
        other.kill()
        other.wait()
    return [float(word) - LATENCY * 1000 for word in (median, high)]


def engine(load, folder, upstream, beside, name, links):
    """Measures one way of driving links. The measured link is the last one."""
    logs = tempfile.mkdtemp(dir=folder)
    proxy = proxies.toxi(folder, upstream.port, name, proxies.rule("latency", f"latency = {LATENCY}"), ["--log", logs])
    trip = measured(load, proxy.port, links)
    time.sleep(0.5)
    proxy.stop()
    told = said_by(proxies.TOXI, "replay", os.path.join(logs, f"bench-{links}-downstream.log"))
    late = told[told.index("late") :].strip()
    print(f"{beside}, {name}, {links} links: {late}; round trip, median {trip[0]:.0f} p99 {trip[1]:.0f}", flush=True)


def measure(load, folder):
    upstream = load.upstream("echo")
    for beside, count in (("alone", 0), ("beside busy processes", os.cpu_count())):
        busy = [subprocess.Popen(["sh", "-c", "while :; do :; done"], preexec_fn=without_priority) for _ in range(count)]
        for name in proxies.ENGINES:
            for links in (1, 100):
                engine(load, folder, upstream, beside, name, links)
        for process in busy:
            process.kill()
            process.wait()
    upstream.stop()
