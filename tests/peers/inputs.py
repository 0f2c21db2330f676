"""`toxi serve --until-eof`: the end of standard input ends it as SIGTERM does."""
import contextlib
import os
import select
import signal
import subprocess
import sys
import time

from .registry import start
from .served import serve_command
from .stops import started, status_of
from .waiting import LIMIT, check

PROXIES = [{"name": "shop", "listen": "127.0.0.1:0", "upstream": "127.0.0.1:1"}]
TOTAL = b"total shop 0 up 0 down 0\n"
ENDED = b"toxi: standard input has ended: serve ends\n"
# An end that comes later isn't taken for one that was there at the start, in seconds.
START = 1
# Starts the command of its arguments over a pipe, and a process that outlives both. It tells the two processes.
PARENT = """
import subprocess, sys, time
served = subprocess.Popen(sys.argv[1:], stdin=subprocess.PIPE)
other = subprocess.Popen(["sleep", "60"], stdout=subprocess.DEVNULL, stderr=subprocess.DEVNULL)
print(served.pid, other.pid, file=sys.stderr, flush=True)
time.sleep(60)
"""


def command_of(program, folder):
    return [*serve_command(program, folder, PROXIES), "--until-eof"]


def serving(program, folder, **setting):
    """A process that reads its input to the end."""
    return started(command_of(program, folder), stdout=subprocess.PIPE, stderr=subprocess.PIPE, **setting)


def line_of(stream):
    readable, _, _ = select.select([stream], [], [], LIMIT)
    check(readable, f"no line within {LIMIT} s")
    return stream.readline()


def ends_with_totals(process):
    check(status_of(process) == 0, f"it ended with status {process.returncode}")
    check(process.stdout.read() == TOTAL, "the last line isn't the total")


@start
def an_input_that_is_closed_later(program, folder):
    """Ten megabytes are read and dropped. Nothing is said of an end that came later."""
    with serving(program, folder, stdin=subprocess.PIPE) as process:
        line_of(process.stdout)
        listens = time.monotonic()
        process.stdin.write(bytes(10_000_000))
        process.stdin.flush()
        time.sleep(max(0, listens + START + 0.2 - time.monotonic()))
        check(process.poll() is None, "it ended while its input was open")
        process.stdin.close()
        ends_with_totals(process)
        check(process.stderr.read() == b"", "it said something")


@start
def an_input_that_has_ended_at_the_start(program, folder):
    """An empty file, and a descriptor that is closed."""
    for setting in ({"stdin": subprocess.DEVNULL}, {"preexec_fn": lambda: os.close(0)}):
        with serving(program, folder, **setting) as process:
            check(status_of(process) == 0, f"it ended with status {process.returncode}")
            check(process.stderr.read() == ENDED, "it didn't say that its input has ended")


@start
def nobody_reads_that_the_input_has_ended(program, folder):
    """Standard error is a pipe without room. It ends all the same."""
    reader, writer = os.pipe()
    os.set_blocking(writer, False)
    with contextlib.suppress(BlockingIOError):
        while True:
            os.write(writer, bytes(4096))
    os.set_blocking(writer, True)
    with started(command_of(program, folder), stdin=subprocess.DEVNULL, stdout=subprocess.PIPE, stderr=writer) as process:
        check(status_of(process) == 0, f"it ended with status {process.returncode}")
    os.close(reader)
    os.close(writer)


@start
def a_killed_parent_whose_child_lives_on(program, folder):
    """Its other child has no end of the pipe, so that the pipe ends with the parent."""
    with started([sys.executable, "-c", PARENT, *command_of(program, folder)], stdout=subprocess.PIPE, stderr=subprocess.PIPE) as parent:
        served, other = (os.pidfd_open(int(process)) for process in line_of(parent.stderr).split())
        try:
            line_of(parent.stdout)
            parent.kill()
            check(status_of(parent) == -signal.SIGKILL, "the parent wasn't killed")
            # The program alone has the other end of this pipe.
            check(parent.stdout.read() == TOTAL, "the last line isn't the total")
            check(has_ended(served, LIMIT), f"it didn't end within {LIMIT} s")
            check(not has_ended(other, 0), "the other child is gone")
        finally:
            for process in (served, other):
                with contextlib.suppress(ProcessLookupError):
                    signal.pidfd_send_signal(process, signal.SIGKILL)
                os.close(process)


def has_ended(process, seconds):
    """Whether a process ends within so many seconds."""
    readable, _, _ = select.select([process], [], [], seconds)
    return bool(readable)
