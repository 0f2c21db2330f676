"""A `toxi serve` process: its lines, its threads, its descriptors and its sockets."""
import contextlib
import ctypes
import glob
import json
import os
import re
import resource
import socket
import subprocess
import tempfile

from .waiting import LIMIT, Failed, check, wait_until

LINK = r"link {name} (\d+) up (\d+) (\w+) down (\d+) (\w+)"
TOTAL = r"total {name} (\d+) up (\d+) down (\d+)"
PIDFD_GETFD = 438
SEED = 1


class Engine:
    """What drives the links: threads of their own, or so many workers. And whether they are logged."""

    workers = None
    logs = False

    @classmethod
    def arguments(cls, folder, logs):
        """The options. A folder of logs that isn't given is a new one in this folder."""
        if cls.logs and logs is None:
            logs = tempfile.mkdtemp(prefix="logs", dir=folder)
        return (["--workers", str(cls.workers)] if cls.workers else []) + (["--log", logs] if logs else [])

    @classmethod
    def threads_at_rest(cls):
        """The threads of a process without links: the first one, the one that serves, the proxy's, those of lines and of notices, the
        logs' one, and the workers."""
        return 5 + cls.logs + (cls.workers or 0)


def address(host, port):
    return f"[{host}]:{port}" if ":" in host else f"{host}:{port}"


def serve_command(program, folder, proxies, script="", logs=None):
    """The command that serves these proxies, whose files are written into the folder."""
    config = os.path.join(folder, "proxies.json")
    rules = os.path.join(folder, "script.toml")
    with open(config, "w") as file:
        json.dump(proxies, file)
    with open(rules, "w") as file:
        file.write(script)
    return [program, "serve", "--config", config, "--script", rules, "--seed", str(SEED), *Engine.arguments(folder, logs)]


class Served:
    """A process with one proxy before an upstream, which ends by itself after so many links."""

    def __init__(self, program, folder, upstream, links, script, name):
        proxy = {"name": name, "listen": address(upstream.host, 0), "upstream": address(upstream.host, upstream.port)}
        command = [*serve_command(program, folder, [proxy], script), "--links", str(links)]
        self.logs = command[command.index("--log") + 1] if Engine.logs else None
        # Whether a log may have lacked a descriptor.
        self.may_be_cut = False
        printed = re.escape(name.replace("\n", r"\x0a"))
        self.link_line = re.compile(LINK.format(name=printed))
        self.total_line = re.compile(TOTAL.format(name=printed))
        self.upstream = upstream
        self.links = links
        self.told = b""
        self.process = subprocess.Popen(command, stdin=subprocess.DEVNULL, stdout=subprocess.PIPE)
        self.output = self.process.stdout
        os.set_blocking(self.output.fileno(), False)

    def __enter__(self):
        return self

    def __exit__(self, *_):
        self.process.kill()
        self.process.wait()
        self.output.close()

    def start(self):
        """Waits until it listens, with the threads of a process without links."""
        wait_until(lambda: self.lines() or self.process.poll() is not None, "the line `listening`")
        check(self.lines(), f"it ended with status {self.process.returncode} before it listened")
        wait_until(lambda: self.threads() == Engine.threads_at_rest(), "the threads of a process without links")
        self.port = int(self.lines()[0].rpartition(":")[2])
        wait_until(self.is_seen_at_rest, "a process whose threads sleep")
        check(self.at_rest == list(range(len(self.at_rest))), f"there are gaps in its descriptors {self.at_rest}")

    def is_seen_at_rest(self):
        """Whether all threads sleep, and then which descriptors there are. One that looks for a connection has one more in hand."""
        self.at_rest = self.descriptors()
        return self.sleeps() and self.descriptors() == self.at_rest

    def lines(self):
        """The whole lines that it printed so far."""
        with contextlib.suppress(BlockingIOError):
            while more := os.read(self.output.fileno(), 65536):
                self.told += more
        return self.told.decode().split("\n")[:-1]

    def threads(self):
        return len(os.listdir(f"/proc/{self.process.pid}/task"))

    def sleeps(self):
        """Whether each of its threads waits for something."""
        states = []
        for path in glob.glob(f"/proc/{self.process.pid}/task/*/stat"):
            with open(path) as file:
                states.append(file.read().rpartition(")")[2].split()[0])
        return set(states) == {"S"}

    def polled(self):
        """How many sockets of links each of its polls watches, in ascending order."""
        polls = {}
        for descriptor in self.at_rest:
            with open(f"/proc/{self.process.pid}/fdinfo/{descriptor}") as file:
                watched = [int(line.split()[1]) for line in file if line.startswith("tfd:")]
            if watched:
                # A worker has two handles of its poll.
                polls[tuple(sorted(watched))] = sum(each not in self.at_rest for each in watched)
        return sorted(polls.values())

    def descriptors(self):
        return sorted(map(int, os.listdir(f"/proc/{self.process.pid}/fd")))

    def allow_descriptors(self, more):
        """Sets the soft limit to so many descriptors more than it has at rest. Without a number it is lifted."""
        self.may_be_cut = True
        _, hard = resource.prlimit(self.process.pid, resource.RLIMIT_NOFILE)
        soft = hard if more is None else len(self.at_rest) + more
        resource.prlimit(self.process.pid, resource.RLIMIT_NOFILE, (soft, hard))

    def handle(self, descriptor):
        """Another handle of a socket of its own."""
        process = os.pidfd_open(self.process.pid)
        library = ctypes.CDLL(None, use_errno=True)
        handle = library.syscall(PIDFD_GETFD, process, descriptor, 0)
        os.close(process)
        check(handle >= 0, f"no handle of its socket: {os.strerror(ctypes.get_errno())}")
        return socket.socket(fileno=handle)

    def listener(self):
        """Another handle of the socket that it listens at, which shares how that waits."""
        for descriptor in self.at_rest:
            if os.readlink(f"/proc/{self.process.pid}/fd/{descriptor}").startswith("socket:"):
                return self.handle(descriptor)
        raise Failed("it has no socket")

    def link_descriptors(self):
        """The descriptors of its links. A thread that doesn't sleep may have one more in hand."""
        wait_until(self.sleeps, "a process whose threads sleep")
        return [descriptor for descriptor in self.descriptors() if descriptor not in self.at_rest]

    def link_sockets(self):
        """Handles of the sockets of its links."""
        return [self.handle(descriptor) for descriptor in self.link_descriptors()]

    def client(self):
        return socket.create_connection((self.upstream.host, self.port), timeout=LIMIT)

    def link(self):
        """A client, and the upstream's side of its link."""
        client = self.client()
        return client, self.upstream.accept()

    def ended_links(self):
        """The lines of links so far, by number."""
        found = [self.link_line.fullmatch(line) for line in self.lines()]
        return {int(line[1]): line for line in found if line}

    def ended(self, number, up, up_end, down, down_end):
        """Waits for the line of a link. Its bytes are a number, or lie in a range."""
        wait_until(lambda: number in self.ended_links(), f"the line of link {number}")
        line = self.ended_links()[number]
        for told, want in ((line[2], up), (line[4], down)):
            check(int(told) in (want if isinstance(want, range) else [want]), f"`{line[0]}`: {told} isn't {want}")
        check((line[3], line[5]) == (up_end, down_end), f"`{line[0]}` isn't up {up_end} down {down_end}")

    def ended_alike(self, links, up, down):
        """Waits for the lines of so many links. Each has these two ends, as bytes and word, in whatever order."""
        wait_until(lambda: len(self.ended_links()) == links, f"the lines of {links} links")
        for line in self.ended_links().values():
            told = ((int(line[2]), line[3]), (int(line[4]), line[5]))
            check(told[0] in up and told[1] in down, f"`{line[0]}` is none of up {up} down {down}")

    def rests(self):
        """Waits until no thread and no descriptor is left of the links that ended."""
        wait_until(
            lambda: self.threads() == Engine.threads_at_rest() and self.descriptors() == self.at_rest,
            "every thread and descriptor of the ended links is given back",
        )

    def ends(self):
        """Waits until it ends by itself, with status 0."""
        try:
            check(self.process.wait(LIMIT) == 0, f"it ended with status {self.process.returncode}")
        except subprocess.TimeoutExpired:
            raise Failed(f"it didn't end within {LIMIT} s of its last link") from None

    def told_all(self):
        """Checks that it printed a line for each link, and then the sums of these lines."""
        links = self.ended_links()
        check(sorted(links) == list(range(1, self.links + 1)), f"there are lines of the links {sorted(links)}")
        check(len(self.lines()) == self.links + 2, f"there are {len(self.lines())} lines for {self.links} links")
        total = self.total_line.fullmatch(self.lines()[-1])
        check(total, f"the last line is `{self.lines()[-1]}`")
        up, down = (sum(int(line[place]) for line in links.values()) for place in (2, 4))
        check(total.groups() == (str(self.links), str(up), str(down)), f"`{total[0]}`, but the sums are {up} and {down}")
