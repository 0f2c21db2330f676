"""A server of names for tests, at 127.0.0.1 port 53 of a network namespace."""
import socket
import struct
import threading

A, AAAA = 1, 28
# The most bytes of an answer by UDP, and the flags of an answer, of one that is cut off, and of one that knows no such name.
MOST = 512
ANSWER, CUT, UNKNOWN = 0x8180, 0x8380, 0x8183


class Names:
    """The addresses of names, as texts, and the questions that were asked by TCP."""

    def __init__(self, addresses):
        self.addresses = addresses
        self.by_tcp = []
        datagrams = socket.socket(socket.AF_INET, socket.SOCK_DGRAM)
        datagrams.bind(("127.0.0.1", 53))
        for serve, source in ((self.by_datagrams, datagrams), (self.by_streams, socket.create_server(("127.0.0.1", 53)))):
            threading.Thread(target=serve, args=(source,), daemon=True).start()

    def by_datagrams(self, source):
        while True:
            question, client = source.recvfrom(4096)
            source.sendto(self.answer(question, MOST), client)

    def by_streams(self, listener):
        while True:
            client, _ = listener.accept()
            with client, client.makefile("rwb") as stream:
                while length := stream.read(2):
                    question = stream.read(struct.unpack(">H", length)[0])
                    self.by_tcp.append(name_in(question)[0])
                    answer = self.answer(question, 65535)
                    stream.write(struct.pack(">H", len(answer)) + answer)
                    stream.flush()

    def answer(self, question, room):
        """The answer to a question of one name, of at most so many bytes."""
        name, kind, end = name_in(question)
        family, length = (socket.AF_INET, 4) if kind == A else (socket.AF_INET6, 16)
        records = [
            struct.pack(">HHHIH", 0xC00C, kind, 1, 60, length) + socket.inet_pton(family, address)
            for address in self.addresses.get(name, ())
            if (":" in address) == (kind == AAAA)
        ]
        fitting = records[: max(0, (room - end) // (12 + length))]
        flags = UNKNOWN if name not in self.addresses else ANSWER if fitting == records else CUT
        return question[:2] + struct.pack(">HHHHH", flags, 1, len(fitting), 0, 0) + question[12:end] + b"".join(fitting)


def name_in(question):
    """The name of a question, its kind, and where it ends."""
    labels, place = [], 12
    while length := question[place]:
        labels.append(question[place + 1 : place + 1 + length].decode())
        place += 1 + length
    return ".".join(labels).lower(), struct.unpack(">H", question[place + 1 : place + 3])[0], place + 5
