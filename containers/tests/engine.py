"""Podman and docker, each with settings and a storage of its own."""
import os
import subprocess
import tempfile
import time

# Descriptors. The soft limit is the hard one, since podman 4.3 swaps the two for the containers of a pod. A higher one than the machine's is refused.
LIMIT = "nofile=1024:1024"
CONTAINERS = f"""\
[containers]
default_ulimits = ["{LIMIT}", "nproc=8192:8192"]
log_driver = "k8s-file"
[engine]
runtime = "runc"
cgroup_manager = "cgroupfs"
events_logger = "none"
[network]
network_backend = "netavark"
network_config_dir = "{{folder}}/networks"
"""
STORAGE = """\
[storage]
driver = "overlay"
graphroot = "{folder}/graph"
runroot = "{folder}/run"
"""
# How long any command may take, and whatever is waited for, in seconds.
PATIENCE = 60


def wait_until(holds, what, seconds=10):
    end = time.monotonic() + seconds
    while not holds():
        if time.monotonic() > end:
            raise AssertionError(f"{what} not within {seconds} s")
        time.sleep(0.05)


class Engine:
    """What runs containers, by the words that podman and docker share."""

    name = compose = None
    # Removes a container at once.
    remove = ()
    # Has an image keep its health check.
    building = ()

    def __init__(self, **environment):
        self.environment = {**os.environ, **environment}

    def call(self, *words):
        """The status of a command, and what it prints and says. It may leave children that keep its output open, as podman-compose does."""
        with tempfile.TemporaryFile("w+") as printed, tempfile.TemporaryFile("w+") as said:
            done = subprocess.run(words, env=self.environment, stdin=subprocess.DEVNULL, stdout=printed, stderr=said, timeout=PATIENCE, check=False)
            for file in (printed, said):
                file.seek(0)
            return done.returncode, printed.read(), said.read()

    def run(self, *words):
        """What a command prints, if it ends well."""
        status, printed, said = self.call(*words)
        if status != 0:
            raise AssertionError(f"{' '.join(words)} has the status {status}: {printed}{said}")
        return printed

    def do(self, *words):
        """The same of a command of the engine."""
        return self.run(self.name, *words)

    def build(self, name, dockerfile, context, *options):
        """Builds an image."""
        self.do("build", "--quiet", *self.building, *options, "--file", dockerfile, "--tag", name, context)

    def lines(self, container):
        """What a container has printed so far."""
        return self.do("logs", container).splitlines()

    def wait_for_line(self, container, start):
        wait_until(lambda: any(line.startswith(start) for line in self.lines(container)), f"{container} prints `{start}`")

    def status(self, container):
        return int(self.do("wait", container))


class Podman(Engine):
    name, compose = "podman", "podman-compose"
    remove = ("rm", "--force", "--time", "0")
    building = ("--format", "docker")

    def __init__(self, folder):
        paths = {name: os.path.join(folder, name) for name in ("CONTAINERS_CONF", "CONTAINERS_STORAGE_CONF")}
        for path, text in zip(paths.values(), (CONTAINERS, STORAGE)):
            with open(path, "w", encoding="utf-8") as file:
                file.write(text.format(folder=folder))
        super().__init__(**paths)

    def is_healthy(self, container):
        """Whether the health check of an image passes. Podman has systemd run it, so it is run here."""
        return self.call(self.name, "healthcheck", "run", container)[0] == 0


class Docker(Engine):
    """With a daemon, which goes with the namespaces."""

    name, compose = "docker", "docker-compose"
    remove = ("rm", "--force")

    def __init__(self, folder):
        host = "unix:///run/docker.sock"
        super().__init__(DOCKER_HOST=host, DOCKER_CONFIG=folder)
        command = ["dockerd", "--host", host, "--data-root", os.path.join(folder, "docker"), "--default-ulimit", LIMIT, "--cgroup-parent", "/libpod_parent"]
        with open(os.path.join(folder, "dockerd"), "w", encoding="utf-8") as said:
            self.daemon = subprocess.Popen(command, stdout=said, stderr=said)
        wait_until(lambda: self.call(self.name, "version")[0] == 0, "dockerd answers")

    def is_healthy(self, container):
        """Whether the health check of an image passes."""
        return self.do("inspect", "--format", "{{.State.Health.Status}}", container) == "healthy\n"
