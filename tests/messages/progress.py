"""How far a command is, told on a terminal once it has worked for a second."""
import os
import pty
import subprocess
import threading
import time

from plain.terminals import read_all

PATIENCE = 60
HEAD = "toxi log 1\nlink shop 3 downstream\nlanes 32 seed 2\n"
LOG = HEAD + "0 piece 9\n5 wrote 0..9 0\n9 end\n12 closed 9\n"
VERDICT = "faithful shop 3 downstream in 9 out 9 closed 9 writes 1 late median 3 p99 5 max 5\n"
ANEW = "\r\x1b[K"
# How long the first log keeps a command waiting, in seconds.
SLOW = 1.2


def write_slowly(path):
    with open(path, "w", encoding="utf-8") as file:
        file.write(HEAD)
        file.flush()
        time.sleep(SLOW)
        file.write(LOG[len(HEAD) :])


def on_terminal(program, folder, arguments, slow, shared=False):
    """The output and what a terminal gets as standard error, and as the output too where it is shared. A slow log comes by a FIFO."""
    with open(os.path.join(folder, "log"), "w", encoding="utf-8") as file:
        file.write(LOG)
    os.mkfifo(os.path.join(folder, "slow"))
    writer = threading.Thread(target=write_slowly, args=(os.path.join(folder, "slow"),))
    if slow:
        writer.start()
    ours, theirs = pty.openpty()
    with subprocess.Popen([program, *arguments], stdin=subprocess.DEVNULL, stdout=theirs if shared else subprocess.PIPE, stderr=theirs, cwd=folder) as child:
        os.close(theirs)
        told = read_all(ours)
        printed = "" if shared else child.stdout.read().decode()
    os.close(ours)
    os.remove(os.path.join(folder, "slow"))
    if slow:
        writer.join()
    return child.returncode, printed, told


def tells_progress(program, folder):
    status, printed, told = on_terminal(program, folder, ["replay", "slow", "log"], True)
    assert (status, printed) == (0, VERDICT * 2), (status, printed)
    assert f"{ANEW}toxi: log 1 of 2, 0 MB" in told or f"{ANEW}toxi: log 2 of 2, 100 %" in told, told
    assert told.endswith(ANEW), told


def leaves_lines_whole(program, folder):
    """Where the output is the same terminal, each of its lines stands alone."""
    status, _, told = on_terminal(program, folder, ["replay", "slow", "log", "absent"], True, shared=True)
    lines = [line.rpartition(ANEW)[2] for line in told.split("\n")]
    wanted = [*[VERDICT.rstrip("\n")] * 2, "toxi: P1 FileFault absent", ""]
    assert status == 1 and "toxi: log 1 of 3" in told and [line for line in lines if not line.startswith("  ")] == wanted, told


def tells_nothing_soon(program, folder):
    """Within the first second, and where standard error is no terminal."""
    assert on_terminal(program, folder, ["replay", "log"], False) == (0, VERDICT, "")
    os.mkfifo(os.path.join(folder, "slow"))
    writer = threading.Thread(target=write_slowly, args=(os.path.join(folder, "slow"),))
    writer.start()
    ran = subprocess.run([program, "replay", "slow", "log"], stdin=subprocess.DEVNULL, capture_output=True, cwd=folder, timeout=PATIENCE, encoding="utf-8", check=False)
    writer.join()
    assert (ran.returncode, ran.stdout, ran.stderr) == (0, VERDICT * 2, ""), ran


CASES = [tells_progress, leaves_lines_whole, tells_nothing_soon]
