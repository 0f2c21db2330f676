"""Loads by clients that people use, through each proxy. A figure is the best of five turns, in which the proxies take turns; behind it stands its ratio to haproxy's."""
import glob
import json
import os
import re
import shutil
import subprocess
import tempfile
import time

import aims
import proxies

TURNS = 5
SECONDS = 3


def contenders(folder, port):
    return [
        proxies.direct(port),
        proxies.haproxy(folder, port),
        *(proxies.toxi(folder, port, name) for name in proxies.ENGINES),
        *(logged(folder, port, name) for name in proxies.ENGINES),
    ]


def logged(folder, port, engine):
    """A proxy that logs its links."""
    logs = tempfile.mkdtemp(dir=folder)
    return proxies.toxi(folder, port, engine, options=["--log", logs], name=f"{engine} that log")


def said_by(*command):
    return subprocess.run(command, check=True, stdout=subprocess.PIPE, stderr=subprocess.DEVNULL, text=True, timeout=120).stdout


def said_by_wrk(port, path, links, seconds):
    return said_by("wrk", "-t2", f"-c{links}", f"-d{seconds}s", f"http://127.0.0.1:{port}/{path}")


def wrk(path, links, seconds=SECONDS):
    def rate(port):
        return float(re.search(r"Requests/sec:\s+([\d.]+)", said_by_wrk(port, path, links, seconds))[1])
    return rate


def redis(links, pipeline, requests=200_000):
    """`requests`: how many, for each of a pipeline."""
    def rate(port):
        said = said_by("redis-benchmark", "-p", str(port), "-c", str(links), "-P", str(pipeline), "-n", str(requests * pipeline), "-t", "get", "--csv")
        return float(said.strip().split("\n")[-1].split(",")[1].strip('"'))
    return rate


def iperf(streams, *options):
    def rate(port):
        said = json.loads(said_by("iperf3", "-c", "127.0.0.1", "-p", str(port), "-P", str(streams), "-t", str(SECONDS), "-J", *options))
        if "sum_received" not in said["end"]:
            raise SystemExit(f"iperf3 tells no rate through port {port}: {said}")
        return said["end"]["sum_received"]["bits_per_second"] / 1e9
    return rate


def compare(folder, port, what, rate, unit, aim):
    """One load through each proxy. Workers are to have so much of haproxy's rate."""
    rivals = contenders(folder, port)
    best = {proxy.name: 0.0 for proxy in rivals}
    for _ in range(TURNS):
        for proxy in rivals:
            best[proxy.name] = max(best[proxy.name], rate(proxy.port))
    for proxy in rivals:
        proxy.stop()
    ratios = ", ".join(f"{name} {value:,.1f} ({value / best['haproxy']:.2f})" for name, value in best.items())
    print(f"{what}, {unit}: {ratios}; {aims.of_rate(best['workers'] / best['haproxy'], aim)}", flush=True)


def nginx(folder, host="127.0.0.1", most=None):
    """nginx at a free port of an address. It answers at most so many requests a second, and lets the others wait."""
    port = proxies.free_port()
    limits = [f"limit_req_zone $server_port zone=all:1m rate={most}r/s;", "limit_req zone=all burst=10000;"] if most else ["", ""]
    for name, size in (("small", 1_000), ("large", 1_000_000)):
        with open(os.path.join(folder, name), "wb") as file:
            file.write(os.urandom(size))
    os.chmod(folder, 0o755)
    config = os.path.join(folder, "nginx.conf")
    with open(config, "w") as file:
        file.write(
            f"worker_processes 2; daemon off; pid {folder}/nginx.pid; error_log /dev/null;\n"
            "events { worker_connections 8192; }\n"
            f"http {{ access_log off; keepalive_requests 100000000; {limits[0]} server {{ listen {host}:{port}; root {folder}; {limits[1]} }} }}\n"
        )
    process = subprocess.Popen(["nginx", "-c", config], stderr=subprocess.DEVNULL)
    proxies.wait_for(port)
    return process, port


def over_http(folder):
    server, port = nginx(folder)
    for path, links in (("small", 16), ("small", 400), ("large", 16)):
        compare(folder, port, f"wrk, {path} answers, {links} links", wrk(path, links), "requests/s", 1.1)
    server.terminate()
    server.wait()


def start_redis(folder):
    port = proxies.free_port()
    command = ["redis-server", "--port", str(port), "--save", "", "--dir", folder]
    server = subprocess.Popen(command, stdout=subprocess.DEVNULL)
    proxies.wait_for(port)
    return server, port


def over_redis(folder):
    server, port = start_redis(folder)
    for pipeline in (1, 16):
        compare(folder, port, f"redis-benchmark GET, 50 links, pipeline {pipeline}", redis(50, pipeline), "requests/s", 1.1)
    server.terminate()
    server.wait()


def over_iperf(folder):
    port = proxies.free_port()
    server = subprocess.Popen(["iperf3", "-s", "-p", str(port)], stdout=subprocess.DEVNULL, stderr=subprocess.DEVNULL)
    time.sleep(0.5)
    for what, load, aim in (("up", iperf(1), 1.3), ("down", iperf(1, "-R"), 1.3), ("8 streams up", iperf(8), 1.1)):
        compare(folder, port, f"iperf3, {what}", load, "Gbit/s", aim)
    server.terminate()
    server.wait()


def start_postgres(folder):
    """PostgreSQL as its own user, which it insists on."""
    programs = sorted(glob.glob("/usr/lib/postgresql/*/bin"))[-1]
    data, port = os.path.join(folder, "postgres"), proxies.free_port()
    os.makedirs(data)
    os.chmod(folder, 0o755)
    shutil.chown(data, "postgres")
    as_user = ["runuser", "-u", "postgres", "--"]
    quiet = {"check": True, "stdout": subprocess.DEVNULL, "stderr": subprocess.DEVNULL}
    subprocess.run([*as_user, f"{programs}/initdb", "-D", data, "-A", "trust"], **quiet)
    command = [f"{programs}/postgres", "-D", data, "-p", str(port), "-k", "", "-c", "max_connections=200", "-c", "fsync=off"]
    server = subprocess.Popen([*as_user, *command], stdout=subprocess.DEVNULL, stderr=subprocess.DEVNULL)
    proxies.wait_for(port)
    while subprocess.run(["pgbench", "-h", "127.0.0.1", "-p", str(port), "-U", "postgres", "-i", "postgres"], stdout=subprocess.DEVNULL, stderr=subprocess.DEVNULL).returncode:
        time.sleep(0.2)
    return server, port


def pgbench(links):
    def rate(port):
        said = said_by("pgbench", "-h", "127.0.0.1", "-p", str(port), "-U", "postgres", "-S", "-n", "-c", str(links), "-j", "2", "-T", str(SECONDS), "postgres")
        return float(re.search(r"tps = ([\d.]+)", said)[1])
    return rate


def over_postgres(folder):
    server, port = start_postgres(folder)
    compare(folder, port, "pgbench -S, 32 links", pgbench(32), "transactions/s", 1.1)
    server.terminate()
    server.wait()


def measure(_, folder):
    over_http(folder)
    over_redis(folder)
    over_iperf(folder)
    over_postgres(folder)
