"""`toxi serve` that is told to end by a signal: what its links and lines say, and how soon it ends."""
import contextlib
import fcntl
import os
import re
import resource
import select
import shutil
import signal
import socket
import subprocess
import threading
import time

from .ends import is_reset, read_all, read_count, send_until_full, shut_writing
from .registry import start
from .served import serve_command
from .waiting import LIMIT, Failed, check, check_in_time, wait_until

LAUNCHER = os.path.join(os.path.dirname(os.path.abspath(__file__)), "..", "..", "toxi")
# Within so many seconds it has ended: if everything ends at its signal, and whatever hangs.
SOON = 0.6
ALWAYS = 2.0
# The least that a pipe holds, and what waits before it, in bytes.
PAGE = 4_096
QUEUE = 65_536
RULE = """[[rule]]
proxy = "shop"
first = 1
[[rule.toxic]]
type = "{type}"
stream = "{stream}"
attributes = {{ {attributes} }}
"""
LINK = re.compile(r"link shop (\d+) up (\d+) (\w+) down (\d+) (\w+)")


def launcher(program, folder):
    """The launcher beside this program, in a folder of its own whose name is awkward."""
    root = os.path.join(folder, "a b=c")
    os.makedirs(os.path.join(root, "crates", "toxi", "src"), exist_ok=True)
    os.makedirs(os.path.join(root, "crates", "toxi", "out"), exist_ok=True)
    copy = os.path.join(root, "toxi")
    if not os.path.exists(copy):
        shutil.copy(LAUNCHER, copy)
        os.symlink(os.path.abspath(program), os.path.join(root, "crates", "toxi", "out", "toxi"))
    return copy


@contextlib.contextmanager
def started(command, **setting):
    """A process that is gone once the case is over."""
    with subprocess.Popen(command, **setting) as process:
        try:
            yield process
        finally:
            process.kill()


def status_of(process):
    """The status with which a process ends."""
    try:
        return process.wait(LIMIT)
    except subprocess.TimeoutExpired:
        raise Failed(f"it didn't end within {LIMIT} s") from None


def echo_one(server):
    with contextlib.suppress(OSError), server:
        server.sendall(server.recv(1))
        server.recv(1)


def log_of(folder, stream, number=1):
    """The lines of the log of a link's stream."""
    with open(os.path.join(folder, f"shop-{number}-{stream}.log")) as file:
        return file.read().splitlines()


class Stopped:
    """A `toxi serve` started by its launcher, with one proxy before an upstream, until a signal ends it."""

    def __init__(
        self,
        program,
        folder,
        script="",
        name="shop",
        queue=4096,
        listen="127.0.0.1:0",
        before=(),
        logs=None,
        upstream_host="127.0.0.1",
        options=(),
        **setting,
    ):
        self.upstream = socket.create_server(("127.0.0.1", 0), backlog=queue)
        self.upstream.settimeout(LIMIT)
        upstream = f"{upstream_host}:{self.upstream.getsockname()[1]}"
        proxy = {"name": name, "listen": listen, "upstream": upstream}
        command = [*serve_command(launcher(program, folder), folder, [proxy], script, logs), *options]
        self.process = subprocess.Popen(
            [*before, *command], stdin=subprocess.DEVNULL, stdout=subprocess.PIPE, stderr=subprocess.PIPE, **setting
        )
        self.port = int(self.line().rpartition(":")[2])

    def __enter__(self):
        return self

    def __exit__(self, *_):
        self.process.kill()
        self.process.wait()
        self.process.stdout.close()
        self.process.stderr.close()
        self.upstream.close()

    def line(self):
        """The next line that it printed."""
        line = b""
        while not line.endswith(b"\n"):
            readable, _, _ = select.select([self.process.stdout], [], [], LIMIT)
            check(readable, f"no line within {LIMIT} s")
            more = os.read(self.process.stdout.fileno(), 1)
            check(more, f"it ended after `{line.decode()}`")
            line += more
        return line.decode()[:-1]

    def client(self):
        return socket.create_connection(("127.0.0.1", self.port), timeout=LIMIT)

    def descriptors(self):
        """How many descriptors it has, of which there is none above the last."""
        return max(map(int, os.listdir(f"/proc/{self.process.pid}/fd"))) + 1

    def allow_descriptors(self, most):
        """Sets the soft limit. Without a number it is lifted."""
        _, hard = resource.prlimit(self.process.pid, resource.RLIMIT_NOFILE)
        resource.prlimit(self.process.pid, resource.RLIMIT_NOFILE, (hard if most is None else most, hard))

    def echo_first_bytes(self):
        """Has the upstream send back the first byte of each connection from now on, and close it once its peer has."""
        self.upstream.settimeout(None)
        threading.Thread(target=self.echo_all, daemon=True).start()

    def echo_all(self):
        with contextlib.suppress(OSError):
            while True:
                server, _ = self.upstream.accept()
                threading.Thread(target=echo_one, args=(server,), daemon=True).start()

    def link(self):
        """A client, and the upstream's side of its link."""
        client = self.client()
        server, _ = self.upstream.accept()
        server.settimeout(LIMIT)
        return client, server

    def drop_waiting(self):
        """Closes what has reached the upstream and wasn't taken there."""
        self.upstream.settimeout(0)
        with contextlib.suppress(BlockingIOError):
            while True:
                self.upstream.accept()[0].close()
        self.upstream.settimeout(LIMIT)

    def tell(self, told=signal.SIGTERM, limit=SOON):
        """Sends a signal, and checks that it ends in time with status 0. Returns its lines."""
        since = time.monotonic()
        self.process.send_signal(told)
        return self.ends(since, limit)

    def ends(self, since, limit=SOON):
        try:
            output, errors = self.process.communicate(timeout=LIMIT)
        except subprocess.TimeoutExpired:
            raise Failed(f"it didn't end within {LIMIT} s") from None
        took = time.monotonic() - since
        check(self.process.returncode == 0, f"it ended with status {self.process.returncode}")
        check_in_time(took < limit, f"it took {took:.3f} s to end")
        self.errors = errors.decode()
        return output.decode().splitlines()


def ended_links(lines):
    """The lines of links by number, which are all lines but the last. That one has their sums."""
    found = [LINK.fullmatch(line) for line in lines[:-1]]
    check(all(found), f"the lines are {lines}")
    ended = {int(line[1]): line for line in found}
    check(len(ended) == len(found), "a link has two lines")
    up, down = (sum(int(line[place]) for line in found) for place in (2, 4))
    total = re.fullmatch(r"total shop (\d+) up (\d+) down (\d+)", lines[-1])
    check(total and total.groups()[1:] == (str(up), str(down)), f"the last line is `{lines[-1]}`, the sums {up} and {down}")
    check(int(total[1]) >= len(ended), f"`{total[0]}` for {len(ended)} links")
    return ended


def told_of_all(lines, links):
    """Checks that each of so many links has a line. Returns the lines by number."""
    ended = ended_links(lines)
    check(sorted(ended) == list(range(1, links + 1)), f"there are lines of the links {sorted(ended)}")
    return ended


def says(line, up, up_end, down, down_end):
    want = (str(up), up_end, str(down), down_end)
    check(line.groups()[1:] == want, f"`{line[0]}` isn't up {up} {up_end} down {down} {down_end}")


def many_links_end(program, folder, told):
    """300 links, ten of them with a writer that waits for room. Each one's peers are reset, and its line has what was written."""
    with Stopped(program, folder) as toxi:
        links = [toxi.link() for _ in range(300)]
        for client, server in links[10:]:
            client.sendall(b"ask")
            server.sendall(b"answer")
            check(read_count(server, 3) == b"ask" and read_count(client, 6) == b"answer", "other bytes")
        for client, _ in links[:10]:
            send_until_full(client)
            client.settimeout(LIMIT)
        ended = told_of_all(toxi.tell(told), 300)
        for client, server in links[10:]:
            check(is_reset(client) == b"" and is_reset(server) == b"", "bytes that nobody sent")
        for client, server in links[:10]:
            is_reset(server)
        check(sum(line.groups()[1:] == ("3", "broken", "6", "broken") for line in ended.values()) == 290, "other lines")
        check(all(line[3] == line[5] == "broken" for line in ended.values()), "a stopped link isn't broken")
        check(toxi.errors == "", f"it said `{toxi.errors}`")


@start
def terminated_with_many_links(program, folder):
    many_links_end(program, folder, signal.SIGTERM)


@start
def interrupted_with_many_links(program, folder):
    many_links_end(program, folder, signal.SIGINT)


@start
def a_slow_end_goes_on_while_lines_are_written(program, folder):
    """The process stands still for longer than the program waits for what hangs. Some of the lines had been written by then."""
    with Stopped(program, folder) as toxi:
        links = [toxi.link() for _ in range(1_000)]
        since = time.monotonic()
        toxi.process.terminate()
        first = toxi.line()
        toxi.process.send_signal(signal.SIGSTOP)
        time.sleep(ALWAYS)
        toxi.process.send_signal(signal.SIGCONT)
        told_of_all([first, *toxi.ends(since, LIMIT)], len(links))


@start
def without_links_it_ends(program, folder):
    with Stopped(program, folder) as toxi:
        check(toxi.tell() == ["total shop 0 up 0 down 0"], "the lines of no link")


@start
def an_ended_stream_keeps_its_word(program, folder):
    """The answer had ended. The question is still open, and is broken."""
    with Stopped(program, folder) as toxi:
        client, server = toxi.link()
        server.sendall(b"answer")
        shut_writing(server)
        check(read_all(client) == b"answer", "another answer")
        ended = told_of_all(toxi.tell(), 1)
        says(ended[1], 0, "broken", 6, "closed")
        is_reset(server)


@start
def a_link_that_ended_keeps_its_line(program, folder):
    with Stopped(program, folder) as toxi:
        client, server = toxi.link()
        client.sendall(b"ask")
        shut_writing(client)
        check(read_all(server) == b"ask", "another question")
        server.close()
        check(read_all(client) == b"", "an answer that nobody sent")
        check(toxi.line() == "link shop 1 up 3 closed down 0 closed", "another line")
        check(toxi.tell() == ["total shop 1 up 3 down 0"], "another total")


def rests_long(program, folder, toxic, attributes, heard=b"", end="broken"):
    """A stream that rests for an hour, or for ever. Its server heard this before it is reset."""
    script = RULE.format(type=toxic, stream="upstream", attributes=attributes)
    with Stopped(program, folder, script) as toxi:
        client, server = toxi.link()
        client.sendall(b"late")
        shut_writing(client)
        time.sleep(0.1)
        ended = told_of_all(toxi.tell(), 1)
        says(ended[1], len(heard), end, 0, "broken")
        check(is_reset(server) == heard, "the server heard other bytes")


@start
def a_rest_of_an_hour_is_broken_off(program, folder):
    rests_long(program, folder, "slow_close", "delay = 3600000", heard=b"late")
    rests_long(program, folder, "latency", "latency = 3600000")
    rests_long(program, folder, "timeout", "timeout = 3600000")
    rests_long(program, folder, "timeout", "timeout = 0", end="open")


@start
def a_cut_link_in_a_rest_is_broken_off(program, folder):
    """A limit has closed both sockets. The other stream would close an hour later."""
    script = RULE.format(type="limit_data", stream="downstream", attributes="bytes = 3")
    script += RULE.format(type="slow_close", stream="upstream", attributes="delay = 3600000").partition("first = 1\n")[2]
    with Stopped(program, folder, script) as toxi:
        client, server = toxi.link()
        server.sendall(b"answer")
        check(read_all(client) == b"ans", "another answer")
        ended = told_of_all(toxi.tell(), 1)
        says(ended[1], 0, "broken", 3, "closed")


@start
def a_connect_that_hangs_is_given_up(program, folder):
    """The upstream's queue is full, so that connects to it wait."""
    logs = os.path.join(folder, "logs-hanging")
    with Stopped(program, folder, queue=0, logs=logs) as toxi, socket.socket() as waits:
        waits.connect(toxi.upstream.getsockname())
        clients = [toxi.client() for _ in range(5)]
        time.sleep(0.2)
        ended = told_of_all(toxi.tell(), 5)
        for number in range(1, 6):
            says(ended[number], 0, "broken", 0, "broken")
            for stream in ("upstream", "downstream"):
                last = log_of(logs, stream, number)[-1]
                check(last == "broken stopped 0", f"the log of link {number} {stream} ends in `{last}`")
        for client in clients:
            client.close()


@start
def clients_come_while_it_stops(program, folder):
    """Each link that got a number has a line, and the totals are the sums of the lines."""
    with Stopped(program, folder) as toxi:
        done = threading.Event()
        toxi.upstream.settimeout(0.1)

        def come():
            while not done.is_set():
                with contextlib.suppress(OSError), toxi.client() as client:
                    client.sendall(b"ask")
                    client.recv(1)

        def answer():
            while not done.is_set():
                with contextlib.suppress(OSError):
                    toxi.upstream.accept()[0].close()

        threads = [threading.Thread(target=act) for act in (come, come, come, answer)]
        for thread in threads:
            thread.start()
        lines = []
        try:
            while len(lines) < 50:
                lines.append(toxi.line())
            lines += toxi.tell()
        finally:
            done.set()
            for thread in threads:
                thread.join()
        told_of_all(lines, len(lines) - 1)


@start
def reading_its_files_hangs(program, folder):
    """The populate file is a pipe that nobody writes. The program ends all the same."""
    pipe = os.path.join(folder, "pipe")
    os.mkfifo(pipe)
    command = serve_command(launcher(program, folder), folder, [])
    command[command.index("--config") + 1] = pipe
    with started(command, stdout=subprocess.PIPE, stderr=subprocess.PIPE) as process:
        wait_until(lambda: "toxi" in open(f"/proc/{process.pid}/comm").read(), "the program")
        time.sleep(0.3)
        since = time.monotonic()
        process.terminate()
        check(status_of(process) == 0, f"it ended with status {process.returncode}")
        took = time.monotonic() - since
        check_in_time(took < ALWAYS, f"it took {took:.3f} s to end")
        check(process.stdout.read() == b"" and process.stderr.read() == b"", "it printed something")


def fill(toxi, links):
    """Carries links in turn while nobody reads the lines."""
    for _ in range(links):
        client, server = toxi.link()
        server.close()
        check(client.recv(1) == b"", "bytes of an upstream that sent none")
        client.close()


@start
def nobody_reads_the_totals(program, folder):
    """Neither the lines nor the errors are read. It ends all the same."""
    with Stopped(program, folder, name="shop" + "p" * 200) as toxi:
        fcntl.fcntl(toxi.process.stdout.fileno(), fcntl.F_SETPIPE_SZ, PAGE)
        fill(toxi, 2 * QUEUE // 200)
        client, server = toxi.link()
        since = time.monotonic()
        toxi.process.terminate()
        check(status_of(toxi.process) == 0, f"it ended with status {toxi.process.returncode}")
        took = time.monotonic() - since
        check_in_time(took < ALWAYS, f"it took {took:.3f} s to end")
        is_reset(client)
        is_reset(server)


@start
def a_late_reader_gets_the_totals(program, folder):
    """Nobody reads the lines until a quarter of a second after the signal."""
    with Stopped(program, folder) as toxi:
        fill(toxi, 300)
        since = time.monotonic()
        toxi.process.terminate()
        time.sleep(0.25)
        lines = toxi.ends(since, ALWAYS)
        told_of_all(lines, 300)


def ignore(*signals):
    """Run before the program: it ignores these signals."""

    def before():
        for ignored in signals:
            signal.signal(ignored, signal.SIG_IGN)

    return before


@start
def an_ignored_signal_stays_ignored(program, folder):
    with Stopped(program, folder, preexec_fn=ignore(signal.SIGINT)) as toxi:
        client, server = toxi.link()
        toxi.process.send_signal(signal.SIGINT)
        time.sleep(0.3)
        client.sendall(b"ask")
        check(read_count(server, 3) == b"ask", "another question")
        told_of_all(toxi.tell(), 1)
    with Stopped(program, folder, preexec_fn=ignore(signal.SIGTERM)) as toxi:
        toxi.process.terminate()
        time.sleep(0.3)
        toxi.link()
        told_of_all(toxi.tell(signal.SIGINT), 1)


@start
def under_nohup_a_hangup_is_ignored(program, folder):
    with Stopped(program, folder, before=["nohup"]) as toxi:
        toxi.process.send_signal(signal.SIGHUP)
        time.sleep(0.3)
        toxi.link()
        told_of_all(toxi.tell(), 1)


@start
def the_program_itself_ends_with_its_totals(program, folder):
    """Without the launcher, by each of the signals that tell it to end."""
    proxy = {"name": "shop", "listen": "127.0.0.1:0", "upstream": "127.0.0.1:1"}
    for told in (signal.SIGTERM, signal.SIGINT, signal.SIGHUP):
        with started(serve_command(program, folder, [proxy]), stdout=subprocess.PIPE, preexec_fn=heed) as process:
            process.stdout.readline()
            process.send_signal(told)
            check(status_of(process) == 0, f"it ended with status {process.returncode}")
            check(process.stdout.read() == b"total shop 0 up 0 down 0\n", "it printed something else")


@start
def symlinks_run_the_program(program, folder):
    """One to the launcher, one to that, and one to the program."""
    proxy = {"name": "shop", "listen": "127.0.0.1:0", "upstream": "127.0.0.1:1"}
    bin_folder = os.path.join(folder, "bin")
    os.mkdir(bin_folder)
    links = [os.path.join(bin_folder, name) for name in ("launched", "again", "bare")]
    for link, to in zip(links, (launcher(program, folder), "launched", os.path.abspath(program))):
        os.symlink(to, link)
    for link in links:
        name = os.path.basename(link)
        environment = {**os.environ, "PATH": f"{bin_folder}:{os.environ['PATH']}"}
        command = [name, *serve_command(link, folder, [proxy])[1:]]
        with started(command, stdout=subprocess.PIPE, env=environment) as process:
            process.stdout.readline()
            process.terminate()
            check(status_of(process) == 0, f"{name} ended with status {process.returncode}")


@start
def under_timeout_it_prints_its_totals(program, folder):
    since = time.monotonic()
    with Stopped(program, folder, before=["timeout", "1"]) as toxi:
        toxi.link()
        status_of(toxi.process)
        output = toxi.process.stdout.read()
        took = time.monotonic() - since
    check(toxi.process.returncode == 124, f"`timeout` ended with status {toxi.process.returncode}")
    check_in_time(took < 1 + ALWAYS, f"it took {took:.3f} s")
    told_of_all(output.decode().splitlines(), 1)


@start
def a_shell_kills_its_job(program, folder):
    """A script starts it by `&`, ends it by `kill` and waits for it."""
    proxy = {"name": "shop", "listen": "127.0.0.1:0", "upstream": "127.0.0.1:1"}
    command = serve_command(launcher(program, folder), folder, [proxy])
    script = '"$@" >"$OUT" & until [ -s "$OUT" ]; do sleep 0.05; done; kill -INT $!; sleep 0.3; kill $!; wait $!; echo status $?'
    told = os.path.join(folder, "told")
    environment = {**os.environ, "OUT": told}
    with started(["sh", "-c", script, "sh", *command], stdout=subprocess.PIPE, env=environment) as shell:
        status_of(shell)
        output = shell.stdout.read()
    check(output == b"status 0\n", f"the script printed `{output.decode()}`")
    with open(told) as file:
        check(file.read().splitlines()[1:] == ["total shop 0 up 0 down 0"], "other lines")


@start
def a_supervisor_starts_it_again(program, folder):
    """Five times on one port, each time ended with live links."""
    with socket.socket() as chosen:
        chosen.bind(("127.0.0.1", 0))
        port = chosen.getsockname()[1]
    for _ in range(5):
        with Stopped(program, folder, listen=f"127.0.0.1:{port}") as toxi:
            links = [toxi.link() for _ in range(20)]
            told_of_all(toxi.tell(), 20)
            for client, server in links:
                is_reset(client)
                is_reset(server)


@start
def other_commands_end_at_once(program, folder):
    """The signals are blocked for `serve` alone. Each other command waits here for its input, for a reader or for an address; `plan` never waits."""
    pipe = os.path.join(folder, "pipe")
    os.mkfifo(pipe)
    files = ["--config", pipe, "--script", pipe]
    waiting = (
        *([name, "latency"] for name in ("dry", "draw", "stages")),
        *([name, pipe] for name in ("replay", "report")),
        ["pick", *files, "--proxy", "shop", "--conn", "1", "--stream", "upstream", "--seed", "1"],
        ["forecast", *files, "--proxy", "shop", "--links", "1", "--seed", "1"],
        ["--explain", "check", *files],
        ["migrate", "--script", pipe],
        ["wait", "127.0.0.1:1", "--within", "600000"],
        ["help", "faults"],
        ["arguments"],
    )
    for words in waiting:
        for told in (signal.SIGINT, signal.SIGTERM):
            ends_at_once([program, *words], told)
    ends_at_once([launcher(program, folder), "dry", "latency"], signal.SIGINT)


def ends_at_once(command, told):
    """A command that waits ends by a signal as programs do."""
    unread, output = os.pipe()
    with open(unread, "rb"), open(output, "wb") as full:
        fcntl.fcntl(output, fcntl.F_SETPIPE_SZ, PAGE)
        with started(command, stdin=subprocess.PIPE, stdout=full, preexec_fn=heed) as process:
            wait_until(lambda: is_asleep(process), "the command to wait")
            process.send_signal(told)
            check(status_of(process) == -told, f"{command} ended with status {process.returncode}")


def heed():
    """Run before a program: it heeds the signals that a script's job by `&` or `nohup` ignores."""
    for told in (signal.SIGINT, signal.SIGHUP):
        signal.signal(told, signal.SIG_DFL)


def is_asleep(process):
    """Whether the program, and not the launcher, sleeps."""
    with open(f"/proc/{process.pid}/stat") as file:
        name, state = re.search(r"\((.*)\) (\w)", file.read()).groups()
    return (name == "toxi" or name.startswith("toxi-")) and state == "S"
