"""`toxi serve` that is told to end by a signal, where something holds it up."""
import contextlib
import os
import shutil
import signal
import socket
import subprocess
import time

from .registry import start
from .served import SEED, Engine
from .stops import ALWAYS, Stopped, launcher, started, status_of
from .waiting import LIMIT, check, check_in_time

# So many groups that the status file of a process has its signals past its first 4,096 bytes.
GROUPS = range(1_000, 2_000)
# Where a server of names takes questions and answers none. A mount that others don't see has the system ask it, and nobody else.
NAMES = "127.0.0.153"
ASK = 'mount --bind "$0/resolv.conf" /etc/resolv.conf && exec "$@"'


@start
def in_many_groups_it_sees_the_signal(program, folder):
    if os.geteuid() != 0:
        print("in_many_groups_it_sees_the_signal: left out, since only root sets groups")
        return
    for told in (signal.SIGTERM, signal.SIGINT):
        with Stopped(program, folder, preexec_fn=lambda: os.setgroups(GROUPS)) as toxi:
            check(toxi.tell(told) == ["total shop 0 up 0 down 0"], "the lines of no link")


def may_mount():
    """Whether this user may have mounts that others don't see."""
    return shutil.which("unshare") and not subprocess.call(["unshare", "--mount", "true"], stderr=subprocess.DEVNULL)


@contextlib.contextmanager
def silent_names(folder):
    """A server of names that answers nothing, and the words before a command that has the system ask it."""
    with open(os.path.join(folder, "resolv.conf"), "w") as file:
        file.write(f"nameserver {NAMES}\noptions timeout:30 attempts:1\n")
    with socket.socket(socket.AF_INET, socket.SOCK_DGRAM) as hole:
        hole.bind((NAMES, 53))
        yield hole, ["unshare", "--mount", "sh", "-c", ASK, folder]


@start
def a_look_up_hangs(program, folder):
    """The name of the upstream gets no answer."""
    if not may_mount():
        print("a_look_up_hangs: left out, since this user can't mount a server of names")
        return
    with silent_names(folder) as (hole, before):
        options = ["--listen", "127.0.0.1:0", "--upstream", "shop.example:80", "--seed", str(SEED), *Engine.arguments(folder, None)]
        command = [*before, launcher(program, folder), "serve", *options]
        with started(command, stdout=subprocess.PIPE, text=True) as process:
            port = int(process.stdout.readline().rpartition(":")[2])
            with socket.create_connection(("127.0.0.1", port)):
                hole.settimeout(LIMIT)
                hole.recv(512)
                since = time.monotonic()
                process.terminate()
                check(status_of(process) == 0, f"it ended with status {process.returncode}")
                took = time.monotonic() - since
    check_in_time(took < ALWAYS, f"it took {took:.3f} s to end")
