"""Links that Toxi itself cuts: by a stop, or since a thread is refused to one of their streams. Line, log, verdict and page of a run agree."""
import os
import re
import subprocess

from . import logged
from .registry import start
from .served import Engine
from .shim import environment, with_shim
from .stops import ALWAYS, Stopped, ended_links, log_of, says
from .waiting import check


def page_of(program, logs):
    """The page of the logs of a run."""
    names = sorted(os.path.join(logs, name) for name in os.listdir(logs))
    done = subprocess.run([program, "report", *names], capture_output=True, text=True, check=False)
    check(done.returncode == 0, f"`report` says {done.stderr}")
    return done.stdout


def tells_no_end(program, logs, cause, number=1):
    """Both logs of a link end by the cause and have heard no end. `replay` and the page say so too."""
    for stream in ("upstream", "downstream"):
        lines = log_of(logs, stream, number)
        check(lines[-1].startswith(f"broken {cause} "), f"the log of {stream} ends in `{lines[-1]}`")
        check(not any(re.fullmatch(r"\d+ end( reset)?", line) for line in lines), f"the log of {stream} tells an end: {lines}")
    verdicts = [verdict[1] for (link, _), verdict in logged.verdicts(program, logs).items() if link == number]
    check(verdicts == ["unfinished"] * 2, f"the verdicts are {verdicts}")
    page = page_of(program, logs)
    check(f"broken {cause}" in page and "closed first" not in page and "client closed" not in page, "the page tells an end")


@start
def a_stopped_link_tells_no_end(program, folder):
    """The client is connected and idle. Its server has answered."""
    logs = os.path.join(folder, "logs-stopped")
    with Stopped(program, folder, logs=logs) as toxi:
        client, server = toxi.link()
        client.sendall(b"ask")
        check(server.recv(3) == b"ask", "another question")
        server.sendall(b"answer")
        check(client.recv(6) == b"answer", "another answer")
        says(ended_links(toxi.tell(limit=ALWAYS))[1], 3, "broken", 6, "broken")
    tells_no_end(program, logs, "stopped")


@start
@with_shim
def a_link_without_a_thread_tells_no_end(program, folder):
    """A link has a thread, one for its second direction, and a reader for each direction. The third or fourth is refused."""
    if Engine.workers:
        return
    for allowed in (2, 3):
        flag = os.path.join(folder, f"threads-{allowed}")
        logs = os.path.join(folder, f"logs-threads-{allowed}")
        with Stopped(program, folder, logs=logs, env=environment(TOXI_REFUSE_THREAD=flag)) as toxi:
            with open(flag, "w") as file:
                file.write(str(allowed))
            with toxi.client() as client:
                client.settimeout(ALWAYS)
                try:
                    check(client.recv(1) == b"", "bytes where a thread was refused")
                except ConnectionResetError:
                    pass
                check(toxi.line() == "link shop 1 up 0 broken down 0 broken", "the link isn't broken")
            os.remove(flag)
            toxi.tell(limit=ALWAYS)
        tells_no_end(program, logs, "thread")
