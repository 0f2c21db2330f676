"""When faults are explained. What explanations say is a table of tests/rows, mistakes.toml."""
import os
import pty
import socket
import subprocess
import threading

from plain.terminals import read_all

FAULT = "toxi: Q1 BadForm 1\n"
EXPLAINED = """toxi: Q1 BadForm 1
  toxic 1: latency=1s
  a type and a colon are missing before the attributes
  write latency:latency=1000
"""
PATIENCE = 30
# What a row of `explains_where_asked` gives: the arguments, TOXI_EXPLAIN, and what is said.
ROWS = [
    (["plan", "latency=1s"], None, FAULT),
    (["plan", "latency=1s"], "", FAULT),
    (["plan", "latency=1s"], "0", FAULT),
    (["plan", "latency=1s"], "yes", FAULT),
    (["plan", "latency=1s"], "1", EXPLAINED),
    (["plan", "--explain", "latency=1s"], None, EXPLAINED),
    (["--explain", "plan", "latency=1s"], None, EXPLAINED),
    (["plan", "latency=1s", "--explain"], "0", EXPLAINED),
]


def environment(asked):
    return dict(os.environ) if asked is None else os.environ | {"TOXI_EXPLAIN": asked}


def run(program, arguments, asked, error, folder, variables=None):
    """Runs a command with this standard error, and these variables beside the others."""
    return subprocess.run(
        [program, *arguments], env=environment(asked) | (variables or {}), stdin=subprocess.DEVNULL, stdout=subprocess.DEVNULL, stderr=error, timeout=PATIENCE, cwd=folder, check=False
    )


def said(program, arguments, asked, folder):
    """What a command says on standard error."""
    return run(program, arguments, asked, subprocess.PIPE, folder).stderr.decode()


def said_on_terminal(program, arguments, asked, folder):
    """What a command says where standard error is a terminal."""
    ours, theirs = pty.openpty()
    run(program, arguments, asked, theirs, folder)
    os.close(theirs)
    text = read_all(ours)
    os.close(ours)
    return text


def said_of_pipe(program, arguments, folder, name, text):
    """What is said of a file that comes by a FIFO, to which nobody writes again."""
    path = os.path.join(folder, name)
    os.mkfifo(path)

    def write():
        with open(path, "w", encoding="utf-8") as pipe:
            pipe.write(text)

    writer = threading.Thread(target=write)
    writer.start()
    told = said(program, arguments, "1", folder)
    writer.join()
    return told


def explains_where_asked(program, folder):
    for arguments, asked, wanted in ROWS:
        found = said(program, arguments, asked, folder)
        assert found == wanted, (arguments, asked, found)


def explains_on_a_terminal(program, folder):
    for asked, wanted in ((None, EXPLAINED), ("0", FAULT), ("1", EXPLAINED)):
        found = said_on_terminal(program, ["plan", "latency=1s"], asked, folder)
        assert found == wanted, (asked, found)


def said_to_journal(program, variables, folder, inode=0):
    """What a command says to a socket, which JOURNAL_STREAM tells unless its inode is another one."""
    ours, theirs = socket.socketpair()
    with ours:
        with theirs:
            file = os.fstat(theirs.fileno())
            journal = f"{file.st_dev}:{file.st_ino + inode}"
            run(program, ["plan", "latency=1s"], None, theirs, folder, {"JOURNAL_STREAM": journal, **variables})
        return b"".join(iter(lambda: ours.recv(65536), b"")).decode()


def explains_in_the_journal(program, folder):
    """What systemd starts inherits JOURNAL_STREAM, also where its standard error goes elsewhere."""
    assert said_to_journal(program, {}, folder) == EXPLAINED
    assert said_to_journal(program, {"TOXI_EXPLAIN": "0"}, folder) == FAULT
    assert said_to_journal(program, {}, folder, inode=1) == FAULT
    for journal in ("", "8", "8:", ":", "x:1", "8:1:1"):
        assert said_to_journal(program, {"JOURNAL_STREAM": journal}, folder) == FAULT, journal
    ours, theirs = socket.socketpair()
    with ours, theirs:
        file = os.fstat(theirs.fileno())
        ran = run(program, ["plan", "latency=1s"], None, subprocess.PIPE, folder, {"JOURNAL_STREAM": f"{file.st_dev}:{file.st_ino}"})
    assert ran.stderr.decode() == FAULT, ran.stderr


def explains_lines_to_their_end(program, folder):
    """What is wrong in a line is looked for in all of it, also where its bytes are no text."""
    for line, wanted in (
        (b"\xff", "its bytes aren't UTF-8"),
        (b"1 data " + b"00" * 5_000 + b"\r", "a carriage return stands at its end"),
        (b"1 data " + b"0" * 10_001, "each byte has two hexadecimal digits, and one is missing"),
    ):
        ran = subprocess.run([program, "dry", "--explain", "latency"], input=line + b"\n", capture_output=True, timeout=PATIENCE, cwd=folder, check=False)
        assert ran.stderr.decode().endswith(f"  {wanted}\n"), (line[:20], ran.stderr[-200:])


def explains_what_the_system_refused(program, folder):
    """A stream that there isn't is no fault of the file that isn't there either. A byte order mark can't be seen."""
    found = said(program, ["pick", "--config", "none", "--script", "none", "--proxy", "shop", "--conn", "1", "--seed", "1", "--stream", "up"], "1", folder)
    assert found.startswith("toxi: P5 ") and "No such file" not in found, found
    with open(os.path.join(folder, "proxies.json"), "w", encoding="utf-8-sig") as file:
        file.write("[]")
    found = said(program, ["check", "--config", "proxies.json", "--script", "proxies.json"], "1", folder)
    assert found.startswith("toxi: C1 ") and "  a byte order mark, which nobody sees, stands at its start\n" in found, found


def write_files(folder, script):
    """The files of a proxy `shop` and this script, as arguments."""
    for name, text in (("proxies.json", '[{"name": "shop", "upstream": "localhost:1"}]'), ("script.toml", script)):
        with open(os.path.join(folder, name), "w", encoding="utf-8") as file:
            file.write(text)
    return ["--config", "proxies.json", "--script", "script.toml"]


def explains_a_port_of_another_program(program, folder):
    with socket.create_server(("127.0.0.1", 0)) as taken:
        address = "127.0.0.1:%d" % taken.getsockname()[1]
        found = said(program, ["serve", "--listen", address, "--upstream", "localhost:1", "--seed", "1"], "1", folder)
    port = address.rpartition(":")[2]
    assert found == (
        "toxi: P4 ListenRefused default\n"
        f"  listen: {address}\n"
        "  Address already in use (os error 98)\n"
        f"  another program listens at port {port}: `ss -ltnp 'sport = :{port}'` tells which; give one of them another port, or 0 for one of the system's choice\n"
    ), found


def tells_a_toxic_that_is_not_there(program, folder):
    files = write_files(folder, '[[rule]]\nproxy = "shop"\nfirst = 1\n[[rule.toxic]]\nname = "flaky"\ntype = "latency"\n')
    asked = ["forecast", *files, "--proxy", "shop", "--links", "1", "--seed", "1", "--where"]
    for name, told, wanted in (
        ("flakes", "1", "toxi: warning: no toxic has the name flakes (flaky?)\n"),
        ("other", "1", "toxi: warning: no toxic has the name other\n"),
        ("flaky", "1", ""),
        ("flakes", None, ""),
    ):
        found = said(program, [*asked, name], told, folder)
        assert found == wanted, (name, found)


def explains_a_script_by_a_fifo(program, folder):
    """It isn't read again."""
    with open(os.path.join(folder, "proxies.json"), "w", encoding="utf-8") as file:
        file.write("[]")
    found = said_of_pipe(program, ["check", "--config", "proxies.json", "--script", "script.toml"], folder, "script.toml", "version = 3\n")
    assert found == "toxi: S2 Field 0 0 version\n  script.toml:1: version = 3\n  version: 1 or 2; absent, it is 1\n", found


def waits_for_no_second_log(program, folder):
    """A FIFO that takes the place of a log is read once."""
    found = said_of_pipe(program, ["replay", "log"], folder, "log", "no log\n")
    assert found.splitlines()[0] == "toxi: G1 BadLog log 1", found


def shows_no_control_characters(program, folder):
    """What a command line has that moves a terminal's cursor or turns its text is escaped, in explanations and in what is said of a command line."""
    for sign in ("\x1b[31m", "\x07", "\u202e"):
        for arguments in (["plan", f"{sign}latency"], ["plan", f"latency:{sign}=1"], ["plan", f"latency:{sign}"], ["plan", f"--{sign}"], ["help", sign], ["stages", "--cap", sign]):
            found = said(program, arguments, "1", folder)
            assert found and sign not in found, (arguments, found)


CASES = [
    shows_no_control_characters,
    explains_where_asked,
    explains_lines_to_their_end,
    explains_what_the_system_refused,
    explains_a_port_of_another_program,
    tells_a_toxic_that_is_not_there,
    explains_on_a_terminal,
    explains_in_the_journal,
    explains_a_script_by_a_fifo,
    waits_for_no_second_log,
]
