"""What the planted bugs share: services with a state for each run, client connections with a deadline, and the form of a fault.

    python3 qNN_name.py serve PORT     the services at PORT, PORT+1, ..; the control of their state at PORT+9
    python3 qNN_name.py client PORT    the client with the bug, once, at TOXI_<NAME>: status 0 right, 7 an allowed failure, 1 wrong
    python3 qNN_name.py fixed PORT     the mended client

In one process, `start(module)` gives the addresses of the services. PLANTED_CONTROL has the control's address, so that children find it.
"""
import dataclasses
import json
import os
import socket
import socketserver
import sys
import threading
import time

HOST = "127.0.0.1"


@dataclasses.dataclass(frozen=True)
class Fault:
    """A toxic on connections `first` to `last` of an upstream; `last=None` is each one from `first` on. Times are ms, a slicer's delay us."""

    upstream: str
    stream: str
    toxic: str
    attributes: dict
    first: int = 1
    last: int | None = 1


class State:
    """What the services remember of one run. A connection keeps its run's state, so a late request never changes that of the next run."""

    current: "State"

    def __init__(self):
        self.lock = threading.RLock()
        self.values = {}
        self.connections = 0
        self.active = 0

    def add(self, key, amount=1):
        """Adds to a counter, and returns the sum."""
        with self.lock:
            self.values[key] = self.values.get(key, 0) + amount
            return self.values[key]

    def put(self, key, value):
        with self.lock:
            self.values[key] = value

    def get(self, key, otherwise=None):
        with self.lock:
            return self.values.get(key, otherwise)


State.current = State()


class Server(socketserver.ThreadingTCPServer):
    """Serves `handle(handler)` on a thread a connection. A handler has `rfile`, `wfile` (each write is sent at once), `request` and `state`."""

    allow_reuse_address = True
    daemon_threads = True
    request_queue_size = 256

    def __init__(self, port, handle, counted=True):
        class Handler(socketserver.StreamRequestHandler):
            disable_nagle_algorithm = True
            timeout = 2.0

            def handle(self):
                self.state = State.current
                with self.state.lock:
                    self.state.connections += counted
                    self.state.active += counted
                try:
                    handle(self)
                except OSError:
                    pass  # The peer has gone.
                finally:
                    with self.state.lock:
                        self.state.active -= counted

        super().__init__((HOST, port), Handler)
        threading.Thread(target=self.serve_forever, args=(0.02,), daemon=True).start()

    def handle_error(self, *_):
        """A peer that has gone before the handler began is no error of a service."""


def lines(handler):
    """The lines of a request, without line feeds, up to the end of the stream. A line that is cut isn't given."""
    for line in handler.rfile:
        if line.endswith(b"\n"):
            yield line[:-1]


def _control(handler):
    if handler.rfile.readline().strip() == b"reset":
        State.current = State()
    state = State.current
    with state.lock:
        told = {**state.values, "connections": state.connections, "active": state.active}
    handler.wfile.write(json.dumps(told).encode() + b"\n")


def _ask_control(word):
    host, port = os.environ["PLANTED_CONTROL"].rsplit(":", 1)
    with socket.create_connection((host, int(port)), 5) as link:
        link.sendall(word.encode() + b"\n")
        return json.loads(link.makefile().readline())


def reset():
    """Gives the services a new state. The usual `before`."""
    _ask_control("reset")


def state():
    """The services' state: their values, `connections` accepted in this run, `active` connections."""
    return _ask_control("state")


def settled(longest=1.0):
    """The state when no connection is active any more, or after `longest` seconds. For effects that come behind the client's end."""
    end = time.monotonic() + longest
    time.sleep(0.02)
    while (told := state())["active"] and time.monotonic() < end:
        time.sleep(0.02)
    return told


class Link:
    """A client's connection. The limit covers all reads up to the next `limit()`, however many pieces they take. Errors are OSErrors."""

    def __init__(self, address, limit):
        self.buffer = b""
        self.limit(limit)
        self.socket = socket.create_connection(address, limit)
        self.socket.setsockopt(socket.IPPROTO_TCP, socket.TCP_NODELAY, 1)

    def __enter__(self):
        return self

    def __exit__(self, *_):
        self.close()

    def close(self):
        self.socket.close()

    def limit(self, seconds):
        """Allows what follows `seconds` from now on."""
        self.end = time.monotonic() + seconds

    def send(self, data):
        self._arm()
        self.socket.sendall(data)

    def more(self):
        """Adds the next piece to the buffer; False at the end of the stream."""
        self._arm()
        piece = self.socket.recv(65536)
        self.buffer += piece
        return bool(piece)

    def line(self):
        """The next line, without its line feed."""
        while b"\n" not in self.buffer:
            if not self.more():
                raise ConnectionError("closed inside a line")
        line, self.buffer = self.buffer.split(b"\n", 1)
        return line

    def exactly(self, size):
        while len(self.buffer) < size:
            if not self.more():
                raise ConnectionError(f"closed at {len(self.buffer)} of {size} bytes")
        data, self.buffer = self.buffer[:size], self.buffer[size:]
        return data

    def rest(self):
        """All up to the end of the stream."""
        while self.more():
            pass
        data, self.buffer = self.buffer, b""
        return data

    def ask(self, request):
        """Sends a line, and returns the line that answers."""
        self.send(request + b"\n")
        return self.line()

    def _arm(self):
        left = self.end - time.monotonic()
        if left <= 0:
            raise TimeoutError("the limit is over")
        self.socket.settimeout(left)


def is_right(module, answer):
    """Whether a module's client has answered rightly."""
    check = getattr(module, "check", None)
    return bool(check(answer)) if check else answer == module.RIGHT


def start(module, port=0):
    """Starts a module's services in this process, and returns host and port of each by its name. With port 0 the system chooses all ports."""
    serving = {name: Server(port + place if port else 0, handle) for place, (name, handle) in enumerate(module.SERVICES.items())}
    control = Server(port + 9 if port else 0, _control, counted=False)
    os.environ["PLANTED_CONTROL"] = f"{HOST}:{control.server_address[1]}"
    return {name: (HOST, server.server_address[1]) for name, server in serving.items()}


def _address(name):
    host, port = os.environ["TOXI_" + name.upper()].rsplit(":", 1)
    return host, int(port)


def main():
    """The commands of the first lines, for the file that runs as a program."""
    module = sys.modules["__main__"]
    word, port = sys.argv[1], int(sys.argv[2])
    if word == "serve":
        start(module, port)
        print("ready", flush=True)
        threading.Event().wait()
    os.environ["PLANTED_CONTROL"] = f"{HOST}:{port + 9}"
    getattr(module, "before", lambda: None)()
    try:
        answer = getattr(module, word)({name: _address(name) for name in module.SERVICES})
    except module.ALLOWED:
        sys.exit(7)
    sys.exit(0 if is_right(module, answer) else 1)
