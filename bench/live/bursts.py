"""Clients that connect at the same moment: when the upstream has each of them."""
import select
import socket
import time

import aims
import proxies

# A figure is the best of so many.
TURNS = 3
# How long the upstream waits for one more of them, in seconds.
PATIENCE = 8


def listen():
    listener = socket.create_server(("127.0.0.1", 0), backlog=4096)
    listener.setblocking(False)
    return listener


def drop_waiting(listener):
    """Closes the connections that were made before."""
    try:
        while True:
            listener.accept()[0].close()
    except BlockingIOError:
        return


class Burst:
    """So many clients of one proxy, and the upstream's sides of their links. Each client says a byte at once if it talks."""

    def __init__(self, port, listener, count, talks):
        self.listener = listener
        self.talks = talks
        self.waiting = select.epoll()
        self.ends = {}
        self.reached = 0
        drop_waiting(listener)
        self.waiting.register(listener, select.EPOLLIN)
        self.begun = self.last = time.monotonic()
        for _ in range(count):
            client = socket.socket()
            client.setblocking(False)
            client.connect_ex(("127.0.0.1", port))
            self.ends[client.fileno()] = client
            if talks:
                self.waiting.register(client, select.EPOLLOUT | select.EPOLLONESHOT)

    def count_one(self):
        self.reached += 1
        self.last = time.monotonic()

    def accept(self):
        while True:
            try:
                server, _ = self.listener.accept()
            except BlockingIOError:
                return
            server.setblocking(False)
            self.ends[server.fileno()] = server
            if self.talks:
                self.waiting.register(server, select.EPOLLIN | select.EPOLLONESHOT)
            else:
                self.count_one()

    def hear(self, end, event):
        if event & select.EPOLLOUT:
            end.send(b"a")
        elif event & select.EPOLLIN and end.recv(1) == b"a":
            self.count_one()

    def reach(self, count):
        """How many have reached the upstream, and the seconds until the last one had."""
        while self.reached < count:
            told = self.waiting.poll(PATIENCE)
            if not told:
                break
            for descriptor, event in told:
                if descriptor == self.listener.fileno():
                    self.accept()
                else:
                    self.hear(self.ends[descriptor], event)
        return self.reached, self.last - self.begun

    def close(self):
        for end in self.ends.values():
            end.close()
        self.waiting.close()


def least_seconds(proxy, listener, count, talks):
    """The least seconds of some turns. A turn in which not all reached the upstream is printed."""
    least = float("inf")
    for _ in range(TURNS):
        time.sleep(0.5)
        burst = Burst(proxy.port, listener, count, talks)
        reached, seconds = burst.reach(count)
        burst.close()
        least = min(least, seconds)
        if reached < count:
            print(f"    {proxy.name:<10} {reached} of {count}, {seconds:.2f} s", flush=True)
    return least


def compare(folder, count, talks):
    with listen() as listener:
        port = listener.getsockname()[1]
        # Threads or a process for each of so many are more than most machines are set for.
        many = count > 4000
        rivals = [proxies.toxi(folder, port, name) for name in proxies.ENGINES if not many or name == "workers"]
        rivals += [proxies.haproxy(folder, port)] if many else [proxies.socat(folder, port), proxies.haproxy(folder, port)]
        least = {}
        for proxy in rivals:
            least[proxy.name] = least_seconds(proxy, listener, count, talks)
            print(f"    {proxy.name:<10} {least[proxy.name]:.2f} s", flush=True)
            proxy.stop()
    if count == 4000:
        print(f"    {aims.of_time(least['workers'] / least['haproxy'], 1)}", flush=True)


def measure(_, folder):
    """Clients that connect at the same moment, and say a byte at once or nothing."""
    print("clients at once: the seconds until the last one reaches the upstream (best of three turns)")
    for count, talks in ((500, True), (1000, True), (1000, False), (2000, True), (4000, True), (proxies.most_links(), True)):
        print(f"  {count} that {'say a byte' if talks else 'are quiet'}")
        compare(folder, count, talks)
