"""When lines of a log reach its file; and logs whose disk fails: the link goes on, its log ends, and standard error tells it once."""
import contextlib
import os
import re
import resource
import signal
import subprocess
import time

from . import logged
from .ends import read_all, read_count
from .registry import start
from .stops import Stopped
from .waiting import check, check_in_time, wait_until

ENDED = re.compile(r"toxi: log shop-(\d+)-(\w+)\.log ends at line (\d+)")
PIECES = 100
# How long the last line of a log may wait for its file, in seconds: less than lines gather.
LAST = 0.3


def small_files():
    """No file grows past 1,000 bytes, which a write is told as an error."""
    signal.signal(signal.SIGXFSZ, signal.SIG_IGN)
    resource.setrlimit(resource.RLIMIT_FSIZE, (1000, 1000))


@contextlib.contextmanager
def small_disk(folder):
    """A disk of one page. None where this user can't mount one."""
    os.mkdir(folder)
    mounted = subprocess.run(["mount", "-t", "tmpfs", "-o", "size=4k", "tmpfs", folder], stderr=subprocess.DEVNULL, check=False)
    try:
        yield mounted.returncode == 0
    finally:
        if mounted.returncode == 0:
            subprocess.run(["umount", folder], check=True)


def talk(toxi):
    """A link that carries many pieces to the client. Nothing is lost."""
    client, server = toxi.link()
    for _ in range(PIECES):
        server.sendall(b"hello")
        check(read_count(client, 5) == b"hello", "the client heard other bytes than the upstream said")
    client.close()
    read_all(server)
    server.close()
    return toxi.line()


def told(toxi, folder):
    """Checks that the log of `downstream` was cut, and that each such end was told once, with the whole lines of the file."""
    cut = ENDED.findall(toxi.errors)
    check(len(cut) == toxi.errors.count("\n") and len(set(cut)) == len(cut), f"standard error has {toxi.errors}")
    ended = {stream: int(line) for _, stream, line in cut}
    check("downstream" in ended, f"standard error has {toxi.errors}")
    for stream, line in ended.items():
        name = os.path.join(folder, f"shop-1-{stream}.log")
        whole = 0
        if os.path.exists(name):
            with open(name, "rb") as file:
                whole = file.read().count(b"\n")
        check(whole == line, f"the log of {stream} has {whole} whole lines, and {line} are told")


@start
def a_last_line_is_not_kept_waiting(program, folder):
    logs = os.path.join(folder, "soon")
    name = os.path.join(logs, "shop-1-downstream.log")
    with Stopped(program, folder, logs=logs) as toxi:
        client, server = toxi.link()
        wait_until(lambda: os.path.exists(name), "the file of the log")
        server.sendall(b"hello")
        check(read_count(client, 5) == b"hello", "the client heard other bytes than the upstream said")
        server.close()
        begun = time.monotonic()
        with open(name) as log:
            wait_until(lambda: log.seek(0) == 0 and " closed " in log.read(), "the last line of the log")
        check_in_time(time.monotonic() - begun < LAST, "the last line of the log waited")
        client.close()
        toxi.line()
        toxi.tell()


@start
def a_file_that_cannot_grow_ends_its_log(program, folder):
    logs = os.path.join(folder, "small")
    with Stopped(program, folder, logs=logs, preexec_fn=small_files) as toxi:
        check(talk(toxi) == f"link shop 1 up 0 closed down {5 * PIECES} closed", "the line of the link")
        toxi.tell()
        told(toxi, logs)
        judged = logged.verdicts(program, logs)
        check(judged[1, "downstream"][1] == "unfinished", "the log of downstream isn't unfinished")
        check(judged[1, "upstream"][1] == "faithful", "the log of upstream isn't faithful")


@start
def a_full_disk_ends_logs(program, folder):
    logs = os.path.join(folder, "disk")
    with small_disk(logs) as is_mounted:
        if not is_mounted:
            print("a_full_disk_ends_logs: left out, since this user can't mount a disk")
            return
        with Stopped(program, folder, logs=logs) as toxi:
            check(talk(toxi) == f"link shop 1 up 0 closed down {5 * PIECES} closed", "the line of the link")
            toxi.tell()
            told(toxi, logs)
