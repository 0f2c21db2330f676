"""Instances of a service, each at a loopback address of its own, which stands for a machine."""
import os
import signal

import proxies
import services

COUNT = 3
# How many links a client keeps open through the balancer.
LINKS = 48


class Life:
    """One run of `toxi serve`: the path of its lines, and the folder of its logs, if it has any."""

    def __init__(self, process, lines, logs):
        self.process = process
        self.lines = lines
        self.logs = logs

    def end(self):
        """Ends it with its totals."""
        self.process.send_signal(signal.SIGTERM)
        if self.process.wait(30) != 0:
            raise SystemExit(f"toxi ended with status {self.process.returncode}")


class Instance:
    """nginx, and `toxi serve` before it under a seed of its own: a base and the instance's number."""

    def __init__(self, folder, number, base, most=None):
        self.number = number
        self.seed = base + number
        self.host = f"127.0.0.{10 + number}"
        self.folder = os.path.join(folder, str(number))
        os.mkdir(self.folder)
        self.server, port = services.nginx(self.folder, self.host, most)
        self.service = f"{self.host}:{port}"
        self.address = f"{self.host}:{proxies.free_port()}"
        self.lives = []

    def start(self, script="", logged=False):
        """Starts Toxi. Logged, its lines also tell what each link meets."""
        name = f"life{len(self.lives) + 1}"
        logs = os.path.join(self.folder, f"{name}-logs")
        entry = {"name": "bench", "listen": self.address, "upstream": self.service}
        options = ["--seed", str(self.seed), *proxies.ENGINES["workers"], *(["--verbose", "--log", logs] if logged else [])]
        process, _, lines = proxies.serve(self.folder, name, [entry], script, options)
        self.lives.append(Life(process, lines, logs))

    def end(self):
        self.lives[-1].end()

    def stop(self):
        self.end()
        self.server.terminate()
        self.server.wait()


def make(folder, base, most=None):
    """The instances, numbered from 1. nginx reads their files as a user of its own."""
    for each in (folder, os.path.dirname(folder)):
        os.chmod(each, 0o755)
    return [Instance(folder, number, base, most) for number in range(1, COUNT + 1)]
