"""The load program, and upstreams of it."""
import os
import subprocess

HERE = os.path.dirname(os.path.abspath(__file__))


class Upstream:
    """A running upstream, and its port."""

    def __init__(self, command):
        self.process = subprocess.Popen(command, stdout=subprocess.PIPE, text=True)
        self.port = int(self.process.stdout.readline())

    def stop(self):
        self.process.kill()
        self.process.wait()


class Load:
    """The compiled load program."""

    def __init__(self, folder):
        self.program = os.path.join(folder, "load")
        subprocess.run(["cc", "-O2", "-pthread", "-o", self.program, os.path.join(HERE, "load.c")], check=True)

    def command(self, *words):
        return [self.program, *map(str, words)]

    def upstream(self, *words):
        return Upstream(self.command(*words))

    def run(self, *words):
        """What it prints, as words."""
        return subprocess.run(self.command(*words), check=True, stdout=subprocess.PIPE, text=True, timeout=600).stdout.split()

    def start(self, *words):
        return subprocess.Popen(self.command(*words), stdout=subprocess.PIPE, text=True)
