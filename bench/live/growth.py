"""How the rate grows with instances, beside the same without Toxi."""
import os

import instances
import proxies
import services

# How many requests a second an instance of the slow service answers.
MOST = 4_000


def used(processes):
    """Processor time so far."""
    return sum(proxies.seconds_used(pid) for process in processes for pid in proxies.family(process.pid))


def costs(fleet, balancer):
    """What a request takes of each program, in microseconds of processor time."""
    programs = {"haproxy": [balancer.process], "Toxi": [each.lives[-1].process for each in fleet], "nginx": [each.server for each in fleet]}
    before = {name: used(processes) for name, processes in programs.items()}
    requests = services.wrk("small", instances.LINKS)(balancer.port) * services.SECONDS
    return {name: (used(processes) - before[name]) / requests * 1e6 for name, processes in programs.items()}


def compare(folder, base, turns, seconds, most):
    """The best rate of each number of instances, without Toxi and with it, which take turns. Then the costs with all of them."""
    fleet = instances.make(folder, base, most)
    for instance in fleet:
        instance.start()
    rate = services.wrk("small", instances.LINKS, seconds)
    balancers = {}
    for count in range(1, instances.COUNT + 1):
        balancers[count, "without"] = proxies.balancer(folder, f"{count}-without", [each.service for each in fleet[:count]])
        balancers[count, "with"] = proxies.balancer(folder, f"{count}-with", [each.address for each in fleet[:count]])
    best = dict.fromkeys(balancers, 0.0)
    for _ in range(turns):
        for key, balancer in balancers.items():
            best[key] = max(best[key], rate(balancer.port))
    spent = costs(fleet, balancers[instances.COUNT, "with"])
    for process in (*balancers.values(), *fleet):
        process.stop()
    return best, spent


def report(best, spent):
    for count in range(1, instances.COUNT + 1):
        without, through = best[count, "without"], best[count, "with"]
        growth = [rate / best[1, key] for key, rate in (("without", without), ("with", through))]
        print(f"  {count} instance{'s' * (count > 1)}: {without:9,.0f} ({growth[0]:.2f}) without Toxi, {through:9,.0f} ({growth[1]:.2f}) with it: {through / without:.2f}", flush=True)
    print(f"  processor time of a request, microseconds: {', '.join(f'{name} {micros:.1f}' for name, micros in spent.items())}", flush=True)


def measure(arguments, folder):
    for what, most in (("as fast as it goes", None), (f"at most {MOST:,} requests/s of each instance", MOST)):
        print(f" {what}: requests/s, {instances.LINKS} links, the best of {arguments.turns} turns, and of one instance's", flush=True)
        inner = os.path.join(folder, f"growth{most}")
        os.mkdir(inner)
        report(*compare(inner, arguments.seed, arguments.turns, arguments.seconds, most))
