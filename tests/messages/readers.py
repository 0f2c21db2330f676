"""Commands whose output is a pipe that nobody reads any more, and names that are none."""
import os
import subprocess

PATIENCE = 60
LOG = "toxi log 1\nlink shop 3 downstream\nlanes 32 seed 2\n0 piece 9\n5 wrote 0..9 0\n9 end\n12 closed 9\n"
# What is told of an output that fails otherwise, or of a command that must be read whole.
UNREAD = "toxi: L4 WriteFault\n"
NAMES_WANTED = "toxi: P1 FileFault toxi log 1\ntoxi: warning: standard input has the lines of a log, and - takes names of logs, one a line\n"
# Arguments, standard input, and whether the command ends silently where its reader has left.
COMMANDS = [
    (["help"], "", True),
    (["help", "faults"], "", True),
    (["--help"], "", True),
    (["serve", "--help"], "", True),
    (["--version"], "", True),
    (["draw", "latency:latency=5"], "0 data 61\n9 eof\n", True),
    (["draw", "--log", "log"], "", True),
    (["replay", "log", "log"], "", True),
    (["replay", "--json", "-"], "log\n" * 9, True),
    (["replay", "--arrivals", "log"], "", True),
    (["replay", "--words", "log"], "", True),
    (["replay", "--result", "log"], "", True),
    (["report", "log"], "", True),
    (["dry"], "0 data 61\n9 eof\n", False),
    (["stages"], "0 data 61\n9 eof\n", False),
    (["plan"], "", False),
]


def write_log(folder):
    with open(os.path.join(folder, "log"), "w", encoding="utf-8") as file:
        file.write(LOG)


def run(program, folder, arguments, given, output):
    """The status of a command, and what it says on standard error."""
    ran = subprocess.run(
        [program, *arguments], input=given, stdout=output, stderr=subprocess.PIPE, cwd=folder, timeout=PATIENCE, encoding="utf-8", check=False
    )
    return ran.returncode, ran.stderr


def ends_without_reader(program, folder):
    write_log(folder)
    for arguments, given, silent in COMMANDS:
        reading, writing = os.pipe()
        os.close(reading)
        try:
            told = run(program, folder, arguments, given, writing)
        finally:
            os.close(writing)
        assert told == ((0, "") if silent else (1, UNREAD)), (arguments, told)


def tells_other_failures(program, folder):
    write_log(folder)
    for arguments, given, _ in COMMANDS:
        with open("/dev/full", "wb") as full:
            told = run(program, folder, arguments, given, full)
        assert told == (1, UNREAD), (arguments, told)


def tells_first_faults(program, folder):
    """What was told before the reader left stays told."""
    write_log(folder)
    reading, writing = os.pipe()
    os.close(reading)
    try:
        told = run(program, folder, ["replay", "absent", "log", "later"], "", writing)
    finally:
        os.close(writing)
    assert told == (0, "toxi: P1 FileFault absent\n"), told


def wants_names(program, folder):
    write_log(folder)
    for command in ("replay", "report"):
        told = run(program, folder, [command, "-"], LOG, subprocess.DEVNULL)
        assert told == (1, NAMES_WANTED), (command, told)
    os.rename(os.path.join(folder, "log"), os.path.join(folder, "toxi log 1"))
    told = run(program, folder, ["replay", "-"], "toxi log 1\n", subprocess.DEVNULL)
    assert told == (0, ""), told


CASES = [ends_without_reader, tells_other_failures, tells_first_faults, wants_names]
