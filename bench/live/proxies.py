"""Proxies on 127.0.0.1 before one upstream, and what a process costs."""
import json
import os
import re
import resource
import signal
import socket
import subprocess
import time

TOXI = os.path.join(os.path.dirname(os.path.abspath(__file__)), "..", "..", "crates", "toxi", "out", "toxi")
# The ways in which `toxi serve` drives links.
ENGINES = {"threads": [], "workers": ["--workers", "2"]}
TICKS = os.sysconf("SC_CLK_TCK")
PAGE = os.sysconf("SC_PAGE_SIZE")


def rule(kind, attributes, stream="downstream"):
    """The script of one toxic on each link."""
    toxic = f'[[rule.toxic]]\ntype = "{kind}"\nstream = "{stream}"\nattributes = {{ {attributes} }}\n'
    return f'[[rule]]\nproxy = "bench"\nfirst = 1\n{toxic}'


def most_links():
    """10,000, or as many as the limit of descriptors allows at two for each."""
    return min(10_000, resource.getrlimit(resource.RLIMIT_NOFILE)[0] // 2 - 100)


def free_port():
    with socket.socket() as probe:
        probe.bind(("127.0.0.1", 0))
        return probe.getsockname()[1]


def listens(port):
    """Whether somebody listens at a port. A connection that tries it would be a link of the proxy."""
    with open("/proc/net/tcp") as file:
        return any(words[1].endswith(f":{port:04X}") and words[3] == "0A" for words in map(str.split, file))


def wait_for(port):
    for _ in range(200):
        if listens(port):
            return
        time.sleep(0.02)
    raise SystemExit(f"nobody listens at port {port}")


class Proxy:
    """A running proxy: its name, the port that it listens at, and its process."""

    def __init__(self, name, port, process):
        self.name = name
        self.port = port
        self.process = process

    def stop(self):
        if self.process:
            self.process.send_signal(signal.SIGTERM)
            self.process.wait()


def direct(upstream):
    return Proxy("no proxy", upstream, None)


def serve(folder, name, entries, script, options, before=(), stderr=None):
    """Starts `toxi serve` of the entries of a populate file: the process, the port of each proxy, and the path of the lines. The files are called after `name`."""
    config, rules, lines = (os.path.join(folder, f"{name}.{kind}") for kind in ("json", "toml", "out"))
    with open(config, "w") as file:
        json.dump(entries, file)
    with open(rules, "w") as file:
        file.write(script)
    with open(lines, "w") as out:
        process = subprocess.Popen([*before, TOXI, "serve", "--config", config, "--script", rules, *options], stdout=out, stderr=stderr)
    for _ in range(200):
        with open(lines) as told:
            ports = dict(re.findall(r"^listening (\S+) \S+:(\d+)$", told.read(), re.M))
        if len(ports) == len(entries):
            return process, {each: int(port) for each, port in ports.items()}, lines
        if process.poll() is not None:
            break
        time.sleep(0.02)
    process.kill()
    raise SystemExit(f"toxi doesn't listen; {stderr.name if stderr else 'standard error'} says why")


def toxi(folder, upstream, engine, script="", options=(), name=None, before=()):
    """A proxy of Toxi's that drives links in one of its ways."""
    entry = {"name": "bench", "listen": "127.0.0.1:0", "upstream": f"127.0.0.1:{upstream}"}
    process, ports, _ = serve(folder, name or engine, [entry], script, ["--seed", "1", *ENGINES[engine], *options], before)
    return Proxy(name or engine, ports["bench"], process)


def toxi_latency(folder, upstream):
    both = rule("latency", "latency = 0") + rule("latency", "latency = 0", "upstream").split("first = 1\n")[1]
    return toxi(folder, upstream, "threads", both, name="threads, latency 0")


def socat(folder, upstream):
    port = free_port()
    listen = f"TCP-LISTEN:{port},bind=127.0.0.1,reuseaddr,fork,nodelay,backlog=4096"
    process = subprocess.Popen(["socat", listen, f"TCP:127.0.0.1:{upstream},nodelay"], stderr=subprocess.DEVNULL)
    wait_for(port)
    return Proxy("socat", port, process)


def haproxy(folder, upstream):
    return balancer(folder, "haproxy", [f"127.0.0.1:{upstream}"])


def balancer(folder, name, servers):
    """haproxy before servers, which get connections in turn. A connection that one refuses goes to another. There are no health checks, since some take a connection's number."""
    port = free_port()
    config = os.path.join(folder, f"{name}.cfg")
    with open(config, "w") as file:
        file.write(
            f"global\n nbthread 2\n maxconn {most_links()}\n"
            "defaults\n mode tcp\n option redispatch 1\n timeout connect 5s\n timeout client 300s\n timeout server 300s\n"
            f"listen bench\n bind 127.0.0.1:{port}\n" + "".join(f" server s{place} {server}\n" for place, server in enumerate(servers))
        )
    process = subprocess.Popen(["haproxy", "-f", config, "-db"], stderr=subprocess.DEVNULL)
    wait_for(port)
    return Proxy(name, port, process)


def seconds_used(pid):
    """Processor time of a process so far."""
    with open(f"/proc/{pid}/stat") as file:
        fields = file.read().rsplit(")", 1)[1].split()
    return (int(fields[11]) + int(fields[12])) / TICKS


def family(pid):
    """A process and its children."""
    with open(f"/proc/{pid}/task/{pid}/children") as file:
        return [pid, *map(int, file.read().split())]


def memory(pid):
    """Resident bytes."""
    with open(f"/proc/{pid}/statm") as file:
        return int(file.read().split()[1]) * PAGE


def threads(pid):
    return len(os.listdir(f"/proc/{pid}/task"))


def descriptors(pid):
    return len(os.listdir(f"/proc/{pid}/fd"))
