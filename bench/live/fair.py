"""How long one byte takes there and back while other links carry bulk."""
import time

import aims
import proxies

# How many links carry bulk, in both directions, and how often a byte is sent meanwhile.
LINKS = (1, 10)
ROUNDS = 2_000
# More than any of them carries by then.
BULK = 10**13


def contenders(folder, port):
    return [*(proxies.toxi(folder, port, name) for name in proxies.ENGINES), proxies.haproxy(folder, port)]


def beside_bulk(load, proxy, links):
    """The median and the 99th percentile of a round trip, in microseconds."""
    bulk = [load.start("exchange", proxy.port, BULK) for _ in range(links)]
    time.sleep(1)
    try:
        median, high, _ = map(float, load.run("ping", proxy.port, ROUNDS))
    finally:
        for link in bulk:
            link.kill()
            link.wait()
    return median, high


def compare(load, folder, links):
    print(f"one-byte round trip beside {links} of bulk, microseconds: median and 99th percentile (best of three turns), and of haproxy's")
    upstream = load.upstream("echo")
    rivals = contenders(folder, upstream.port)
    best = {proxy.name: (float("inf"), float("inf")) for proxy in rivals}
    for _ in range(3):
        for proxy in rivals:
            best[proxy.name] = min(best[proxy.name], beside_bulk(load, proxy, links))
    beside = best["haproxy"]
    for proxy in rivals:
        median, high = best[proxy.name]
        print(f"  {proxy.name:<18} {median:8.1f} {high:8.1f}   {median / beside[0]:5.2f} {high / beside[1]:5.2f}", flush=True)
        proxy.stop()
    if links > 1:
        median, high = (aims.of_time(ours / its, 1) for ours, its in zip(best["workers"], beside))
        print(f"  the median: {median}; the percentile: {high}", flush=True)
    upstream.stop()


def measure(load, folder):
    for links in LINKS:
        compare(load, folder, links)
