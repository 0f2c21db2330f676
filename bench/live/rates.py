"""How much each proxy carries, and how long one byte takes there and back."""
import aims
import proxies

MEGABYTES = 500


def contenders(folder, port):
    """Proxies without toxics, and one way of Toxi's with a latency of 0 on both streams."""
    return [
        proxies.direct(port),
        *(proxies.toxi(folder, port, name) for name in proxies.ENGINES),
        proxies.toxi_latency(folder, port),
        proxies.socat(folder, port),
        proxies.haproxy(folder, port),
    ]


def throughput(load, folder):
    print(f"{MEGABYTES} MB each way at once, Gbit/s each way (best of five), and of haproxy's")
    size = MEGABYTES * 1_000_000
    upstream = load.upstream("exchange-server", size)
    rivals = contenders(folder, upstream.port)
    least = {proxy.name: float("inf") for proxy in rivals}
    for _ in range(5):
        for proxy in rivals:
            least[proxy.name] = min(least[proxy.name], float(load.run("exchange", proxy.port, size)[0]))
    for proxy in rivals:
        seconds = least[proxy.name]
        print(f"  {proxy.name:<18} {size * 8 / 1e9 / seconds:6.2f}   {least['haproxy'] / seconds:5.2f}", flush=True)
        proxy.stop()
    print(f"  {aims.of_rate(least['haproxy'] / least['workers'], 1.2)}", flush=True)
    upstream.stop()


def round_trips(load, folder, count=20_000):
    print("one-byte round trip, microseconds: median and 99th percentile (best of five turns), and of haproxy's")
    upstream = load.upstream("echo")
    rivals = contenders(folder, upstream.port)
    best = {proxy.name: (float("inf"), float("inf")) for proxy in rivals}
    for _ in range(5):
        for proxy in rivals:
            median, high, _ = map(float, load.run("ping", proxy.port, count))
            best[proxy.name] = min(best[proxy.name], (median, high))
    beside = best["haproxy"]
    for proxy in rivals:
        median, high = best[proxy.name]
        print(f"  {proxy.name:<18} {median:6.1f} {high:6.1f}   {median / beside[0]:5.2f} {high / beside[1]:5.2f}", flush=True)
        proxy.stop()
    print(f"  {aims.of_time(best['workers'][0] / beside[0], 0.75)}", flush=True)
    upstream.stop()


def measure(load, folder):
    throughput(load, folder)
    round_trips(load, folder)
