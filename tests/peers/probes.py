"""Probes of `serve --ready`, and what `wait` does while nobody listens."""
import contextlib
import os
import signal
import socket
import subprocess
import time

from .registry import start
from .served import serve_command
from .shim import environment, with_shim
from .starts import proxy
from .stops import Stopped, log_of
from .waiting import LIMIT, check, check_in_time, wait_until

PROBES = 10
# How long a `wait` may take in these cases, in milliseconds, and how much later it may end, in seconds.
WITHIN = 400
LATE = 1.5


def free_port():
    """A port that nobody has."""
    with socket.create_server(("127.0.0.1", 0)) as listener:
        return listener.getsockname()[1]


def wait_command(program, address, within=WITHIN):
    return [program, "wait", address, "--within", str(within)]


def probe(port, said=b""):
    """A probe, whose connection is closed at once. Bytes that nobody reads make that a reset."""
    with socket.create_connection(("127.0.0.1", port), timeout=LIMIT) as client, contextlib.suppress(ConnectionResetError, BrokenPipeError):
        client.sendall(said)
        check(client.recv(1) == b"", "bytes for a probe")


def check_refused(port):
    """Nobody listens at a port, which anybody may have."""
    with socket.socket() as client:
        check(client.connect_ex(("127.0.0.1", port)) != 0, "somebody still listens for probes")
    socket.create_server(("127.0.0.1", port)).close()


@start
def probes_take_no_number(program, folder):
    """The first client of the proxy is connection 1, whoever was at the address for probes before. The process ends by itself behind that link."""
    ready, logs = free_port(), os.path.join(folder, "logs-probes")
    command = [*serve_command(program, folder, [proxy("shop")], logs=logs), "--links", "1", "--verbose", "--ready", f"127.0.0.1:{ready}"]
    with subprocess.Popen(command, stdout=subprocess.PIPE, stderr=subprocess.PIPE, text=True) as process:
        subprocess.run(wait_command(program, f"127.0.0.1:{ready}", 10_000), check=True, timeout=2 * LIMIT)
        for number in range(PROBES):
            probe(ready, b"GET / HTTP/1.0\r\n\r\n" if number % 2 else b"")
        port = int(process.stdout.readline().rpartition(":")[2])
        with socket.create_connection(("127.0.0.1", port), timeout=LIMIT) as client:
            check(client.recv(1) == b"", "bytes of an upstream that wasn't reached")
        output, errors = process.communicate(timeout=LIMIT)
    check(process.returncode == 0, f"it ended with status {process.returncode}")
    check(output == "link shop 1 up 0 broken down 0 broken\ntotal shop 1 up 0 down 0\n", f"it printed `{output}`")
    check(errors == "toxi: broken shop 1: upstream 127.0.0.1:1: connection refused\n", f"it said `{errors}`")
    for stream in ("upstream", "downstream"):
        last = log_of(logs, stream)[-1]
        check(last == "broken upstream 0", f"the log of {stream} ends in `{last}`")
    check_refused(ready)


@start
def a_stop_frees_the_address_for_probes(program, folder):
    """It ends as soon as without that address, also while probes are open and more of them come."""
    ready = free_port()
    with Stopped(program, folder, options=["--ready", f"127.0.0.1:{ready}"]) as toxi:
        waiting = [socket.create_connection(("127.0.0.1", ready), timeout=LIMIT) for _ in range(PROBES)]
        lines = toxi.tell(signal.SIGTERM)
        for client in waiting:
            client.close()
        check(lines == ["total shop 0 up 0 down 0"], f"it printed {lines}")
        check(toxi.errors == "", f"it said `{toxi.errors}`")
    check_refused(ready)


@start
def an_address_for_probes_is_refused(program, folder):
    """Somebody has it. Nothing is printed, and no proxy is served."""
    with socket.create_server(("127.0.0.1", 0)) as taken:
        command = [*serve_command(program, folder, [proxy("shop")]), "--ready", f"127.0.0.1:{taken.getsockname()[1]}"]
        ended = subprocess.run(command, capture_output=True, text=True, timeout=LIMIT)
    check((ended.returncode, ended.stdout) == (1, ""), f"it ended with status {ended.returncode} and printed `{ended.stdout}`")
    check(ended.stderr == "toxi: P4 ListenRefused --ready\n", f"it said `{ended.stderr}`")


@start
def probes_that_come_without_descriptors_spin_nothing(program, folder):
    """There is no descriptor for them, so they wait. The process rests meanwhile, and closes them once there is one."""
    ready = free_port()
    with Stopped(program, folder, options=["--ready", f"127.0.0.1:{ready}"]) as toxi:
        toxi.allow_descriptors(toxi.descriptors())
        with socket.create_connection(("127.0.0.1", ready), timeout=LIMIT) as client:
            before = processor_time(toxi.process.pid)
            time.sleep(1)
            used = processor_time(toxi.process.pid) - before
            toxi.allow_descriptors(None)
            check(client.recv(1) == b"", "bytes for a probe")
        check(used < 50, f"it used {10 * used} ms of a second")
        toxi.tell()


def processor_time(process):
    """The ticks of the processors, 100 a second, that a process has used."""
    with open(f"/proc/{process}/stat") as file:
        fields = file.read().rpartition(")")[2].split()
    return int(fields[11]) + int(fields[12])


def check_not_ready(command, address, **setting):
    """A `wait` that ends by its time."""
    since = time.monotonic()
    ended = subprocess.run(command, capture_output=True, text=True, timeout=LIMIT, **setting)
    took = time.monotonic() - since
    check((ended.returncode, ended.stdout) == (1, ""), f"it ended with status {ended.returncode} and printed `{ended.stdout}`")
    check(ended.stderr == f"toxi: P8 NotReady {address}\n", f"it said `{ended.stderr}`")
    check(took >= WITHIN / 1000, f"it took {took:.3f} s")
    check_in_time(took < WITHIN / 1000 + LATE, f"it took {took:.3f} s")


@start
def a_wait_ends_once_somebody_listens(program, _folder):
    """It is refused until then, and silent."""
    port = free_port()
    with subprocess.Popen(wait_command(program, f"localhost:{port}", 10_000), stdout=subprocess.PIPE, stderr=subprocess.STDOUT) as process:
        time.sleep(0.3)
        check(process.poll() is None, "it ended before anybody listened")
        with socket.create_server(("127.0.0.1", port)) as listener:
            listener.settimeout(LIMIT)
            listener.accept()[0].close()
            wait_until(lambda: process.poll() is not None, "the wait ends")
        check((process.returncode, process.stdout.read()) == (0, b""), f"it ended with status {process.returncode}")


@start
def a_wait_ends_by_its_time_while_nobody_listens(program, _folder):
    address = f"127.0.0.1:{free_port()}"
    check_not_ready(wait_command(program, address), address)


@start
def a_wait_ends_by_its_time_while_a_connect_hangs(program, _folder):
    """The queue of the listener is full, so that nothing answers a connect."""
    with socket.socket() as listener, socket.socket() as waits:
        listener.bind(("127.0.0.1", 0))
        listener.listen(0)
        waits.connect(listener.getsockname())
        address = f"127.0.0.1:{listener.getsockname()[1]}"
        check_not_ready(wait_command(program, address), address)


@start
@with_shim
def a_wait_ends_by_its_time_while_a_look_up_hangs(program, _folder):
    """The system's look-up of the name never answers."""
    check_not_ready(wait_command(program, "shop.test:1"), "shop.test:1", env=environment(TOXI_LOOK_UPS_THAT_HANG=1000))
