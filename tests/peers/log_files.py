"""Logs whose names are taken, or whose files are replaced: nothing else is opened or written, such a log ends, and the others go on."""
import os

from . import logged
from .disks import talk
from .ends import read_all, read_count
from .registry import start
from .stops import Stopped
from .waiting import check, wait_until

NAME = "shop-1-downstream.log"
OTHERS = b"a file of others\n"


def checked(program, toxi, logs, line):
    """Ends the program, whose log of NAME has ended at this line. The logs of two links are faithful but for that one."""
    toxi.tell()
    check(toxi.errors == f"toxi: log {NAME} ends at line {line}\n", f"standard error has {toxi.errors}")
    os.rename(os.path.join(logs, NAME), os.path.join(logs, "..", "replaced"))
    judged = logged.verdicts(program, logs)
    found = {key: verdict[1] for key, verdict in judged.items()}
    check(found == {(1, "upstream"): "faithful", (2, "upstream"): "faithful", (2, "downstream"): "faithful"}, f"the logs are {found}")


def ends_at_once(program, folder, take_name):
    """Something takes the name of a log before the first line of it."""
    logs = os.path.join(folder, "kept")
    with Stopped(program, folder, logs=logs) as toxi:
        take_name(os.path.join(logs, NAME))
        talk(toxi)
        talk(toxi)
        checked(program, toxi, logs, 0)


def ends_between(program, folder, take_name):
    """Something takes the place of a log's file between two of its lines."""
    logs = os.path.join(folder, "kept")
    name = os.path.join(logs, NAME)
    with Stopped(program, folder, logs=logs) as toxi:
        client, server = toxi.link()
        server.sendall(b"hello")
        check(read_count(client, 5) == b"hello", "the client heard other bytes than the upstream said")
        wait_until(lambda: os.path.exists(name) and b" wrote " in read(name), "the lines of the log")
        lines = read(name).count(b"\n")
        os.rename(name, os.path.join(folder, "moved"))
        take_name(name)
        server.sendall(b"hello")
        check(read_count(client, 5) == b"hello", "the client heard other bytes than the upstream said")
        client.close()
        read_all(server)
        server.close()
        toxi.line()
        talk(toxi)
        checked(program, toxi, logs, lines)
    check(read(os.path.join(folder, "moved")).count(b"\n") == lines, "the file that was moved has grown")


def read(name):
    with open(name, "rb") as file:
        return file.read()


def symlink_to_others(folder):
    """Makes a file, and returns what makes a symlink to it."""
    others = os.path.join(folder, "others")
    with open(others, "wb") as file:
        file.write(OTHERS)
    return lambda name: os.symlink(others, name)


def untouched(folder):
    check(read(os.path.join(folder, "others")) == OTHERS, "the file behind the symlink was written")


@start
def a_fifo_in_the_place_of_a_log_holds_up_no_other(program, folder):
    ends_at_once(program, folder, os.mkfifo)


@start
def a_symlink_in_the_place_of_a_log_is_not_followed(program, folder):
    ends_at_once(program, folder, symlink_to_others(folder))
    untouched(folder)


@start
def a_symlink_to_nothing_makes_no_file(program, folder):
    nothing = os.path.join(folder, "nothing")
    ends_at_once(program, folder, lambda name: os.symlink(nothing, name))
    check(not os.path.exists(nothing), "a file was made behind the symlink")


@start
def a_file_in_the_place_of_a_log_is_not_written(program, folder):
    def take_name(name):
        with open(name, "wb") as file:
            file.write(OTHERS)

    ends_at_once(program, folder, take_name)
    check(read(os.path.join(folder, "replaced")) == OTHERS, "the file of others was written")


@start
def a_folder_in_the_place_of_a_log_ends_it(program, folder):
    ends_at_once(program, folder, os.mkdir)


@start
def a_log_swapped_for_a_symlink_is_not_followed(program, folder):
    ends_between(program, folder, symlink_to_others(folder))
    untouched(folder)


@start
def a_log_swapped_for_a_fifo_holds_up_no_other(program, folder):
    ends_between(program, folder, os.mkfifo)


@start
def a_log_swapped_for_a_folder_ends(program, folder):
    ends_between(program, folder, os.mkdir)
