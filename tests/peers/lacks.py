"""What the system refuses a link: descriptors, memory, or a place among what is watched."""
import os
import socket
import threading
import time

from .registry import start
from .served import Engine
from .shim import environment, with_shim
from .stops import ALWAYS, Stopped, ended_links, log_of
from .waiting import LIMIT, Failed, check, wait_until

CLIENTS = 60
# A link takes two descriptors. With so many more than at rest one is carried after the other, or more at once.
FEW_DESCRIPTORS = range(3, 41)
# How long each client holds its link, in seconds.
MOMENT = 0.005


def talk_in_turn(toxi, failures):
    """A client that says a byte, hears it again, and holds its link for a moment."""
    try:
        with socket.create_connection(("127.0.0.1", toxi.port), timeout=6 * LIMIT) as client:
            client.sendall(b"a")
            check(client.recv(1) == b"a", "no answer")
            time.sleep(MOMENT)
    except (OSError, Failed) as fault:
        failures.append(fault)


def begin_to_talk(toxi, count, failures):
    """So many clients at once, as threads."""
    clients = [threading.Thread(target=talk_in_turn, args=(toxi, failures)) for _ in range(count)]
    for client in clients:
        client.start()
    return clients


def serve_at_limits(toxi, at_rest):
    """At each limit of descriptors, above so many at rest, all clients are served that come at once."""
    for more in FEW_DESCRIPTORS:
        toxi.allow_descriptors(at_rest + more)
        failures = []
        for client in begin_to_talk(toxi, CLIENTS, failures):
            client.join()
        check(not failures, f"{len(failures)} of {CLIENTS} clients aren't served at a limit of {more} more: {failures[:1]}")
    toxi.allow_descriptors(None)


@start
def clients_wait_for_descriptors(program, folder):
    """At no limit is a link broken for a lack of descriptors. Without enough for one link its clients wait, and the program ends all
    the same."""
    with Stopped(program, folder) as toxi:
        toxi.echo_first_bytes()
        at_rest = toxi.descriptors()
        serve_at_limits(toxi, at_rest)
        toxi.allow_descriptors(toxi.descriptors())
        failures = []
        waiting = begin_to_talk(toxi, 8, failures)
        time.sleep(0.3)
        check(not failures, f"a client that waits was broken: {failures[:1]}")
        toxi.allow_descriptors(None)
        for client in waiting:
            client.join()
        check(not failures, f"a client that has waited isn't served: {failures[:1]}")
        # A link that lives at the signal is broken by it.
        wait_until(lambda: toxi.descriptors() <= at_rest, "the end of all links")
        toxi.allow_descriptors(at_rest)
        lines = toxi.tell(limit=ALWAYS)
        broken = [line[0] for line in ended_links(lines).values() if "broken" in line[0]]
        check(not broken, f"{len(broken)} links are broken, the first `{broken[:1]}`")


def carries_a_link(toxi, number):
    client, server = toxi.link()
    client.close()
    server.close()
    check(toxi.line() == f"link shop {number} up 0 closed down 0 closed", f"link {number} isn't carried")


def refused(program, folder, variable):
    """What a link needs can't be had while a file is there. Its log tells memory as the cause, in both ways of driving links."""
    flag = os.path.join(folder, "refused")
    logs = os.path.join(folder, "logs-refused")
    with Stopped(program, folder, logs=logs, env=environment(**{variable: flag})) as toxi:
        carries_a_link(toxi, 1)
        with open(flag, "w"):
            pass
        with toxi.client() as client:
            check(client.recv(1) == b"", "bytes where nothing could be had")
        check(toxi.line() == "link shop 2 up 0 broken down 0 broken", "the second link isn't broken")
        os.remove(flag)
        # It may have been connected before something was refused.
        toxi.drop_waiting()
        carries_a_link(toxi, 3)
        toxi.tell(limit=ALWAYS)
    for stream in ("upstream", "downstream"):
        said = log_of(logs, stream, 2)[-1]
        check(said == "broken memory 0", f"the log of {stream} ends in `{said}`")


@start
@with_shim
def refused_memory_is_told_so(program, folder):
    refused(program, folder, "TOXI_REFUSE_MEMORY")


@start
@with_shim
def refused_registration_is_told_as_memory(program, folder):
    """Only a worker has sockets watched."""
    if Engine.workers:
        refused(program, folder, "TOXI_REFUSE_POLL")
