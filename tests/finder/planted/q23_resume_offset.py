"""Upload: after a cut it is resumed at what was sent, not at what the service has. The bytes between stay zeros."""
from shared import Fault, Link, main, reset, settled

FILE = b"".join(b"block %04d of the file, 32 bytes\n"[:32] % place for place in range(100))
BLOCK = 320


def serve(handler):
    """`size` is answered by the file's length, `at OFFSET LENGTH` and so many bytes by `ok`."""
    while (line := handler.rfile.readline()).endswith(b"\n"):
        word, *rest = line.split()
        if word == b"at":
            offset, size = map(int, rest)
            data = handler.rfile.read(size)
            with handler.state.lock:
                kept = bytes.fromhex(handler.state.get("file", "")).ljust(offset + len(data), b"\0")
                handler.state.put("file", (kept[:offset] + data + kept[offset + len(data):]).hex())
            if len(data) < size:
                return
            handler.wfile.write(b"ok\n")
        else:
            handler.wfile.write(b"%d\n" % (len(handler.state.get("file", "")) // 2))


class Upload:
    """Sends blocks without waiting, and looks at their receipts at the end."""

    def __init__(self, address):
        self.address, self.sent = address, 0

    def run(self, start):
        with Link(self.address, 0.4) as link:
            self.sent = int(link.ask(b"size")) if start is None else start
            blocks = 0
            while self.sent < len(FILE):
                block = FILE[self.sent : self.sent + BLOCK]
                link.send(b"at %d %d\n" % (self.sent, len(block)) + block)
                self.sent += len(block)
                blocks += 1
                if blocks % 4 == 0 or self.sent == len(FILE):
                    for _ in range(min(blocks, 4)):
                        link.line()
                    blocks = 0
        return "stored"


def _put(addresses, asks):
    upload = Upload(addresses["store"])
    try:
        return upload.run(0)
    except OSError:
        return upload.run(None if asks else upload.sent)


def client(addresses):
    return _put(addresses, asks=False)


def fixed(addresses):
    return _put(addresses, asks=True)


before = reset


def check(answer):
    return bytes.fromhex(settled().get("file", "")) == FILE


ALLOWED = OSError
WITHIN = 3.0
SERVICES = {"store": serve}
FAULT = Fault("store", "upstream", "limit_data", {"bytes": 700})
if __name__ == "__main__":
    main()
