"""How much of the cores that this process may use is idle."""
import os
import re
import time

CORE = re.compile(r"cpu(\d+) \d+ \d+ \d+ (\d+)")


def idle_seconds():
    """The seconds for which the cores were idle since the machine started, all together."""
    mine = os.sched_getaffinity(0)
    with open("/proc/stat", encoding="ascii") as file:
        ticks = sum(int(it[2]) for it in map(CORE.match, file) if it and int(it[1]) in mine)
    return ticks / os.sysconf("SC_CLK_TCK")


def idle_cores(seconds):
    """How many cores were idle over the next seconds, on average. It waits for these."""
    idle, began = idle_seconds(), time.monotonic()
    time.sleep(seconds)
    return (idle_seconds() - idle) / (time.monotonic() - began)
