"""The start of a process: its first lines, and what is refused."""
import re
import resource
import subprocess

from .registry import start
from .served import serve_command
from .waiting import LIMIT, check

# More than the memory below, so that no thread can be had.
STACK = 1 << 30
MEMORY = 512 << 20


def proxy(name, enabled=True):
    return {"name": name, "listen": "127.0.0.1:0", "upstream": "127.0.0.1:1", "enabled": enabled}


@start
def listening_lines_are_in_order(program, folder):
    """Those of the enabled proxies, in the order of the file, each with a port of its own."""
    names = [f"proxy{number}" for number in (7, 3, 9, 1, 5)]
    proxies = [proxy(name, name != "proxy9") for name in names]
    with subprocess.Popen(serve_command(program, folder, proxies), stdout=subprocess.PIPE, text=True) as process:
        lines = [process.stdout.readline() for _ in range(4)]
        process.kill()
    told = [re.fullmatch(r"listening (\w+) 127\.0\.0\.1:(\d+)\n", line) for line in lines]
    check(all(told), f"the first lines are {lines}")
    check([line[1] for line in told] == ["proxy7", "proxy3", "proxy1", "proxy5"], f"the order of the lines {lines}")
    check(len({line[2] for line in told}) == 4, f"the ports of the lines {lines}")


@start
def first_thread_is_refused(program, folder):
    """Its stack is larger than the memory that the process may have. It ends before it takes a connection."""

    def limit():
        resource.setrlimit(resource.RLIMIT_STACK, (STACK, resource.getrlimit(resource.RLIMIT_STACK)[1]))
        resource.setrlimit(resource.RLIMIT_AS, (MEMORY, MEMORY))

    command = serve_command(program, folder, [proxy("shop")])
    ended = subprocess.run(command, capture_output=True, text=True, timeout=LIMIT, preexec_fn=limit)
    check(ended.returncode == 1, f"it ended with status {ended.returncode}")
    check(ended.stderr == "toxi: F1 SpawnRefused\n", f"it said `{ended.stderr}`")
    check(ended.stdout == "", f"it printed `{ended.stdout}`")
