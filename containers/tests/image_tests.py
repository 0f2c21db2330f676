"""The image by itself."""
import json
import os
import shutil
import tarfile
import tempfile
import time

from case import NETWORK, ContainerCase
from engine import wait_until

FILES = {"bin/toxi", "licenses/toxi/LICENSE", "licenses/toxi/NOTICES"}
# Its most bytes.
LIMIT = 3_000_000
QEMU = "qemu-aarch64-static"
# A user without rights, whose files can't be written, and without a network.
BARE = ["--network", "none", "--read-only", "--cap-drop", "all", "--security-opt", "no-new-privileges"]
SERVE = ["serve", "--listen", "[::]:18080", "--upstream", "localhost:8080", "--seed", "1"]


class Image(ContainerCase):
    def serve(self, *options, command=SERVE):
        """The name of a container that listens."""
        name = self.id().rpartition(".")[2]
        self.engine.do("run", "--detach", "--name", name, *options, "toxi", *command)
        self.addCleanup(self.engine.do, *self.engine.remove, name)
        return name

    def test_its_settings(self):
        settings = json.loads(self.engine.do("image", "inspect", "toxi"))[0]["Config"]
        version = self.engine.run(self.program, "--version").split()[1]
        self.assertEqual(settings["Labels"]["org.opencontainers.image.version"], version)
        self.assertEqual((settings["User"], settings["StopSignal"]), ("65532:65532", "SIGTERM"))
        self.assertEqual(list(settings["ExposedPorts"]), ["18080/tcp"])
        self.assertIn("TOXI_EXPLAIN=1", settings["Env"])

    def test_its_files(self):
        with tempfile.TemporaryDirectory() as folder:
            path = os.path.join(folder, "files.tar")
            name = self.engine.do("create", "toxi").strip()
            self.engine.do("export", "--output", path, name)
            self.engine.do("rm", name)
            with tarfile.open(path) as archive:
                # A container's empty files are the engine's.
                sizes = {each.name: each.size for each in archive if each.isfile() and each.size}
        self.assertEqual(set(sizes), FILES)
        self.assertLess(sum(sizes.values()), LIMIT)

    def test_its_commands(self):
        for words in ([], ["--version"], ["help", "P4"]):
            printed = self.engine.do("run", "--rm", *BARE, "toxi", *words)
            self.assertEqual(printed, self.engine.run(self.program, *(words or ["--help"])))

    def test_it_ends_with_its_totals(self):
        for signal in ("TERM", "INT", "HUP"):
            with self.subTest(signal):
                name = self.serve(*BARE)
                self.engine.wait_for_line(name, "listening default [::]:18080")
                begun = time.monotonic()
                self.engine.do("kill", "--signal", signal, name)
                self.check_totals(name, links=0)
                self.assertLess(time.monotonic() - begun, 2)
                self.doCleanups()

    def test_its_probes(self):
        name = self.serve(*BARE, command=[*SERVE, "--ready", "127.0.0.1:18081"])
        for _ in range(3):
            self.engine.do("exec", name, "/bin/toxi", "wait", "127.0.0.1:18081")
        status, _, said = self.engine.call(self.engine.name, "exec", name, "/bin/toxi", "wait", "127.0.0.1:1", "--within", "100")
        self.assertEqual((status, said.splitlines()[0]), (1, "toxi: P8 NotReady 127.0.0.1:1"))
        self.engine.do("stop", name)
        self.check_totals(name, links=0)

    def test_its_logs(self):
        with tempfile.TemporaryDirectory() as folder:
            os.chown(folder, 65532, 65532)
            words = ["--network", NETWORK, "--name", "logging", "--read-only", "--volume", f"{folder}:/logs", "toxi", *SERVE, "--links", "1", "--log", "/logs/first"]
            self.engine.do("run", "--detach", *words)
            self.addCleanup(self.engine.do, *self.engine.remove, "logging")
            self.engine.wait_for_line("logging", "listening")
            connect = "import socket; socket.create_connection(('logging', 18080), 10).recv(1)"
            self.engine.do("run", "--rm", "--network", NETWORK, "python:3-slim", "python3", "-c", connect)
            self.check_totals("logging", links=1)
            self.assertEqual(len(os.listdir(os.path.join(folder, "first"))), 2)

    def test_its_health(self):
        name = self.serve(*BARE, command=[*SERVE, "--ready", "127.0.0.1:18081"])
        wait_until(lambda: self.engine.is_healthy(name), "the container is healthy")
        self.engine.do("stop", name)
        self.check_totals(name, links=0)

    def test_its_twin_for_arm(self):
        """Its settings, and its file run by qemu: no container of it runs here."""
        if self.engine.name != "podman" or not shutil.which(QEMU):
            self.skipTest("built by podman, and run by qemu-user-static")
        with tempfile.TemporaryDirectory() as folder:
            context = self.context
            dockerfile = os.path.join(context, "containers", "Dockerfile")
            self.engine.build("toxi-arm", dockerfile, context, "--platform", "linux/arm64", "--build-arg", "MACHINE=aarch64")
            settings = json.loads(self.engine.do("image", "inspect", "toxi-arm"))[0]
            self.assertEqual((settings["Os"], settings["Architecture"]), ("linux", "arm64"))
            self.engine.do("save", "--format", "docker-dir", "--output", folder, "toxi-arm")
            told = [self.engine.run(QEMU, path, "--version") for path in programs_in(folder)]
        self.assertEqual(told, [self.engine.run(self.program, "--version")])


def programs_in(folder):
    """The paths of the programs that the layers of a saved image hold, unpacked."""
    for name in sorted(os.listdir(folder)):
        path = os.path.join(folder, name)
        if not tarfile.is_tarfile(path):
            continue
        with tarfile.open(path) as layer:
            if "bin/toxi" in layer.getnames():
                layer.extract("bin/toxi", f"{path}-unpacked")
                yield os.path.join(f"{path}-unpacked", "bin", "toxi")
