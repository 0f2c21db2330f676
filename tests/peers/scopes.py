"""Addresses with a scope that has a name, with and without brackets: to listen at, as an upstream, and to wait for."""
import ctypes
import fcntl
import os
import socket
import struct
import subprocess
import sys

from .registry import start
from .served import serve_command
from .waiting import LIMIT, Failed, check, wait_until

CLONE_NEWNET = 0x40000000
SIOCSIFADDR = 0x8916
SIOCSIFFLAGS = 0x8914
IFF_UP = 1
ADDRESS = "fe80::7"


def enter_network():
    """Enters a network of its own, whose only interface has a link-local address. False where the system doesn't let it."""
    if ctypes.CDLL(None, use_errno=True).unshare(CLONE_NEWNET):
        return False
    with socket.socket(socket.AF_INET6, socket.SOCK_DGRAM) as control:
        fcntl.ioctl(control, SIOCSIFFLAGS, struct.pack("16sH14x", b"lo", IFF_UP))
        wanted = socket.inet_pton(socket.AF_INET6, ADDRESS) + struct.pack("Ii", 64, socket.if_nametoindex("lo"))
        fcntl.ioctl(control, SIOCSIFADDR, wanted)
    # The system looks for a while whether another host has the address.
    wait_until(can_bind, "an address of its own")
    return True


def can_bind():
    with socket.socket(socket.AF_INET6) as tried:
        try:
            tried.bind((ADDRESS, 0, 0, socket.if_nametoindex("lo")))
        except OSError:
            return False
    return True


def echo_once(upstream):
    server, _ = upstream.accept()
    with server:
        server.sendall(server.recv(1))


def serve_in(program, folder, host):
    """Listens and connects at this spelling of the address, and waits for it."""
    with socket.socket(socket.AF_INET6) as upstream:
        upstream.bind((ADDRESS, 0, 0, socket.if_nametoindex("lo")))
        upstream.listen()
        upstream.settimeout(LIMIT)
        proxy = {"name": "shop", "listen": f"{host}:0", "upstream": f"{host}:{upstream.getsockname()[1]}"}
        command = [*serve_command(program, folder, [proxy]), "--links", "1"]
        with subprocess.Popen(command, stdout=subprocess.PIPE, text=True) as process:
            try:
                port = int(process.stdout.readline().rpartition(":")[2])
                with socket.create_connection((ADDRESS + "%lo", port), timeout=LIMIT) as client:
                    client.sendall(b"a")
                    echo_once(upstream)
                    check(client.recv(1) == b"a", "no answer")
                check(process.wait(LIMIT) == 0, f"it ended with status {process.returncode}")
            finally:
                process.kill()
        waited = subprocess.run([program, "wait", f"{host}:{upstream.getsockname()[1]}", "--within", "5000"], check=False, capture_output=True, text=True)
        check(waited.returncode == 0, f"`wait` says {waited.stderr}")


def in_child(steps):
    """Runs steps in a process of its own, since a network is left only by its end."""
    child = os.fork()
    if child == 0:
        status = 1
        try:
            steps()
            status = 0
        except (Failed, OSError, ValueError) as fault:
            print(fault, file=sys.stderr)
        finally:
            os._exit(status)
    _, status = os.waitpid(child, 0)
    check(status == 0, "a scope with a name isn't taken")


@start
def a_scope_may_have_a_name(program, folder):
    def steps():
        if not enter_network():
            print("scopes: no network of its own is to be had here; skipped", file=sys.stderr)
            return
        for host in (f"[{ADDRESS}%lo]", f"{ADDRESS}%lo", f"[{ADDRESS}%1]"):
            serve_in(program, folder, host)

    in_child(steps)
