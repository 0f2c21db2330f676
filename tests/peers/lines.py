"""Options of `serve`, and an output that nobody reads: it holds up no link and not the other output, and what it loses is told."""
import fcntl
import os
import re
import signal
import socket
import subprocess
import time

from .registry import start
from .served import Engine, serve_command
from .waiting import LIMIT, check, check_in_time

# So many links in turn, whose lines take far more than the output and the queue before it hold.
LINKS = 4_500
NAME = "shop" + "p" * 200
# What memory may grow by while the lines wait, in KB. Those of the last third would take more.
GROWTH = 400
# The C library keeps memory for each thread, and what one allocates another may free. With one store for all, growth is the program's own.
ONE_STORE = {**os.environ, "MALLOC_ARENA_MAX": "1"}


def resident(process):
    """The memory of a process, in KB."""
    with open(f"/proc/{process.pid}/status") as file:
        return int(re.search(r"VmRSS:\s+(\d+)", file.read())[1])


def settled(process):
    """Its memory once nothing waits for the writer of logs."""
    time.sleep(1)
    return resident(process)


def carry(port, upstream, links):
    """Carries links in turn. The upstream ends each."""
    for _ in range(links):
        with socket.create_connection(("127.0.0.1", port), timeout=LIMIT) as client:
            server, _ = upstream.accept()
            server.close()
            check(client.recv(1) == b"", "bytes of an upstream that sent none")


@start
def nobody_reads_the_lines(program, folder):
    """Each link is carried all the same. Once the lines are read, they are whole and in order, and each gap is told once."""
    with socket.create_server(("127.0.0.1", 0)) as upstream:
        upstream.settimeout(LIMIT)
        proxy = {"name": NAME, "listen": "127.0.0.1:0", "upstream": f"127.0.0.1:{upstream.getsockname()[1]}"}
        # Logs wait for their files, which take longer than the links.
        few_logs = ["--log-links", "100"] if Engine.logs else []
        command = [*serve_command(program, folder, [proxy]), "--links", str(LINKS), *few_logs]
        pipe = subprocess.PIPE
        with subprocess.Popen(command, env=ONE_STORE, stdout=pipe, stderr=pipe, text=True) as process:
            port = int(process.stdout.readline().rpartition(":")[2])
            carry(port, upstream, LINKS * 2 // 3)
            before = settled(process)
            carry(port, upstream, LINKS // 3)
            grown = settled(process) - before
            output, errors = process.communicate(timeout=LIMIT)
    lines = output.splitlines()
    numbers = [int(re.fullmatch(rf"link {NAME} (\d+) up 0 \w+ down 0 \w+", line)[1]) for line in lines[:-1]]
    dropped = [int(count) for count in re.findall(r"^toxi: (\d+) lines? dropped: the output wasn't read$", errors, re.M)]
    check(process.returncode == 0, f"it ended with status {process.returncode}")
    check(re.fullmatch(rf"total {NAME} {LINKS} up 0 down 0", lines[-1]), f"the last line is {lines[-1]}")
    check(len(set(numbers)) == len(numbers), "a link has two lines")
    check(dropped and len(numbers) + sum(dropped) == LINKS, f"{len(numbers)} lines, and {dropped} told as dropped")
    check(len(errors.splitlines()) == len(dropped), f"it said `{errors}`")
    check(grown < GROWTH, f"memory grew by {grown} KB")


def connect_that_hangs(program, folder, millis, meanwhile):
    """Serves one link whose upstream's queue is full, so that a connect to it waits until its limit. How long that took, and what was printed."""
    with socket.socket() as upstream, socket.socket() as waits:
        upstream.bind(("127.0.0.1", 0))
        upstream.listen(0)
        waits.connect(upstream.getsockname())
        proxy = {"name": "shop", "listen": "127.0.0.1:0", "upstream": f"127.0.0.1:{upstream.getsockname()[1]}"}
        command = [*serve_command(program, folder, [proxy]), "--links", "1", "--connect-timeout", str(millis)]
        with subprocess.Popen(command, stdout=subprocess.PIPE, text=True) as process:
            port = int(process.stdout.readline().rpartition(":")[2])
            since = time.monotonic()
            with socket.create_connection(("127.0.0.1", port), timeout=LIMIT) as client:
                meanwhile(process)
                check(client.recv(1) == b"", "bytes of an upstream that wasn't reached")
            took = time.monotonic() - since
            output, _ = process.communicate(timeout=LIMIT)
    check(took >= millis / 1000, f"the connect took {took:.3f} s")
    return took, output


@start
def connect_takes_no_longer_than_told(program, folder):
    """It is given up after 300 milliseconds, and its link is broken."""
    took, output = connect_that_hangs(program, folder, 300, lambda process: None)
    check_in_time(took < 2, f"the connect took {took:.3f} s")
    check(output == "link shop 1 up 0 broken down 0 broken\ntotal shop 1 up 0 down 0\n", f"it printed `{output}`")


@start
def a_stopped_process_connects_no_longer(program, folder):
    """The time of a connect goes on while the process doesn't run."""
    def stand_still(process):
        time.sleep(0.2)
        process.send_signal(signal.SIGSTOP)
        time.sleep(1.5)
        process.send_signal(signal.SIGCONT)

    took, _ = connect_that_hangs(program, folder, 2_000, stand_still)
    check_in_time(took < 2.8, f"the connect took {took:.3f} s")


def full_pipe():
    """Both ends of a pipe that has no room, and how many bytes are in it."""
    reads, writes = os.pipe()
    os.set_blocking(writes, False)
    filled = 0
    while True:
        try:
            filled += os.write(writes, b"x" * 4096)
        except BlockingIOError:
            break
    os.set_blocking(writes, True)
    return reads, writes, filled


def refuse(port, links):
    """Connects so many clients in turn, whose upstream refuses them."""
    for _ in range(links):
        with socket.create_connection(("127.0.0.1", port), timeout=LIMIT) as client:
            check(client.recv(1) == b"", "bytes of an upstream that wasn't reached")


def serve_refused(program, folder, links, **outputs):
    """Serves so many links, of a proxy whose upstream refuses them."""
    proxy = {"name": "shop", "listen": "127.0.0.1:0", "upstream": "127.0.0.1:1"}
    script = '[[rule]]\nproxy = "other"\nfirst = 1\n'
    return subprocess.Popen([*serve_command(program, folder, [proxy], script), "--links", str(links)], **outputs)


@start
def unread_errors_hold_up_no_line(program, folder):
    """Standard error is full from the start and nobody reads it. The program has a warning for it, and a broken link."""
    reads, writes, _ = full_pipe()
    with serve_refused(program, folder, 3, stdout=subprocess.PIPE, stderr=writes, text=True) as process:
        try:
            port = int(process.stdout.readline().rpartition(":")[2])
            refuse(port, 3)
            since = time.monotonic()
            output, _ = process.communicate(timeout=LIMIT)
        finally:
            process.kill()
        took = time.monotonic() - since
    os.close(reads)
    os.close(writes)
    want = "".join(f"link shop {number} up 0 broken down 0 broken\n" for number in (1, 2, 3)) + "total shop 3 up 0 down 0\n"
    check(output == want, f"it printed `{output}`")
    check(process.returncode == 0, f"it ended with status {process.returncode}")
    check_in_time(took < 2, f"it ended {took:.3f} s after its last link")


@start
def unread_lines_hold_up_no_error(program, folder):
    """Standard output is full once it listens, and nobody reads it for a while."""
    reads, writes = os.pipe()
    fcntl.fcntl(writes, fcntl.F_SETPIPE_SZ, 4096)
    with serve_refused(program, folder, 200, stdout=writes, stderr=subprocess.PIPE, text=True) as process:
        os.close(writes)
        try:
            port = int(os.read(reads, 100).decode().partition("\n")[0].rpartition(":")[2])
            warning = process.stderr.readline()
            refuse(port, 1)
            first = process.stderr.readline()
            refuse(port, 199)
            more = process.stderr.readline()
            with open(reads) as file:
                lines = file.read().splitlines()
            check(process.wait(LIMIT) == 0, f"it ended with status {process.returncode}")
            rest = process.stderr.read()
        finally:
            process.kill()
    check(warning.startswith("toxi: warning: rule 1 never applies"), f"it warned `{warning}`")
    check(first == "toxi: broken shop 1: upstream 127.0.0.1:1: connection refused\n", f"it told `{first}`")
    # Of two links that two workers break at once either may come first.
    check(re.fullmatch(r"toxi: broken shop (?!1:)\d+: upstream 127.0.0.1:1: connection refused, and \d+ more\n", more), f"it told `{more}`")
    told = sum(1 + int(count or 0) for count in re.findall(r"^toxi: broken shop \d+: .*?(?:, and (\d+) more)?$", first + more + rest, re.M))
    check(told == 200, f"of 200 broken links it told {told}: `{more}{rest}`")
    check(lines[-1] == "total shop 200 up 0 down 0", f"the last line is `{lines[-1]}`")
