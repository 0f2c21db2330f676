"""What docs/REPLAY.md says of a log and of its verdict, as a plain reading of it; and random logs."""
import re

from . import files, manual, texts
from .toxics import HORIZON

NUMBER = b"(0|[1-9][0-9]*)"
NAME = r"[^\x00-\x1f\x7f]+"
LINK = re.compile(rf"link ({NAME}) (0|[1-9][0-9]*) (upstream|downstream)")
SEED = re.compile(rb"lanes (16|32) seed " + NUMBER)
TOXIC = re.compile(rf"toxic ([^ ]*) ({NAME})")
# The most bytes of a piece.
MAX_PIECE = 16_384
PIECE = re.compile(NUMBER + b" piece " + NUMBER)
END = re.compile(NUMBER + b" end( reset)?")
WROTE = re.compile(NUMBER + b" wrote " + NUMBER + rb"\.\." + NUMBER + b" " + NUMBER)
ENDED = re.compile(NUMBER + b" (open|closed|reset)(?: " + NUMBER + b")?")
BROKEN = re.compile(b"broken (write|memory|thread|upstream|stopped) " + NUMBER)


class Bad(Exception):
    """A line that isn't of the form, or may not stand there."""


def text_of(line):
    try:
        return line.decode()
    except UnicodeDecodeError:
        raise Bad from None


def read_toxic(line):
    match = TOXIC.fullmatch(text_of(line))
    if not match:
        raise Bad
    try:
        toxic = manual.read_short(match[1], 1)
    except manual.Fault:
        raise Bad from None
    if files.short_form(*toxic) != match[1]:
        raise Bad
    return toxic


class Log:
    """A log, as far as it was read."""

    def __init__(self):
        self.chain, self.pieces, self.end, self.was_reset = [], [], None, False
        self.heard, self.said, self.writes, self.late = 0, 0, 0, []
        self.latest, self.begun, self.over, self.unfaithful, self.ending = 0, False, False, None, None

    def read_header(self, number, line):
        if number == 1 and line != b"toxi log 1":
            raise Bad
        if number == 2:
            match = LINK.fullmatch(text_of(line))
            if not match or not 1 <= int(match[2]) <= 1_000_000:
                raise Bad
            self.name, self.number, self.stream = match[1], int(match[2]), match[3]
        if number == 3:
            match = SEED.fullmatch(line)
            if not match or int(match[2]) >= 2**64:
                raise Bad
            self.lanes = int(match[1])
            self.words = manual.words_of_seed(int(match[2]), self.number, self.stream)

    def at(self, reading):
        if not self.latest <= reading <= HORIZON:
            raise Bad
        self.latest = reading

    def read_event(self, line):
        """Whether the event follows from the plan."""
        self.begun = True
        if self.over:
            raise Bad
        if match := PIECE.fullmatch(line):
            reading, count = map(int, match.groups())
            self.at(reading)
            if not 0 < count <= MAX_PIECE or self.heard + count > manual.MAX_BYTES or self.end is not None:
                raise Bad
            if self.unfaithful is None:
                self.pieces.append((reading, (self.heard, self.heard + count)))
            self.heard += count
            return True
        if match := END.fullmatch(line):
            self.at(int(match[1]))
            if self.end is not None:
                raise Bad
            self.end, self.was_reset = int(match[1]), match[2] is not None
            return True
        if match := WROTE.fullmatch(line):
            reading, start, stop, due = map(int, match.groups())
            self.at(reading)
            if max(start, stop) > manual.MAX_BYTES or due > HORIZON:
                raise Bad
            return self.unfaithful is not None or self.write(reading, start, stop, due)
        return self.read_last(line)

    def write(self, reading, start, stop, due):
        table = self.table()
        if start != self.said or not start < stop <= len(table) or due > reading or {*table[start:stop]} != {due}:
            return False
        self.said = stop
        self.writes += 1
        self.late.append(reading - due)
        return True

    def read_last(self, line):
        self.over = True
        if match := BROKEN.fullmatch(line):
            if int(match[2]) > manual.MAX_BYTES:
                raise Bad
            return True
        match = ENDED.fullmatch(line)
        if not match or (match[2] == b"open") != (match[3] is None):
            raise Bad
        self.at(int(match[1]))
        instant = None if match[3] is None else int(match[3])
        if instant is not None and instant > HORIZON:
            raise Bad
        return self.unfaithful is not None or self.ends(match[2].decode(), instant)

    def ends(self, ending, instant):
        *_, (at, known) = self.given(self.final())
        if self.said != len(self.table()) or (known, at) != (ending, instant) or not self.is_settled():
            return False
        if instant is not None:
            if instant > self.latest:
                return False
            self.late.append(self.latest - instant)
        self.ending = ending if instant is None else f"{ending} {instant}"
        return True

    def final(self):
        return [(None, "open") if self.end is None else (self.end, "closed")]

    def given(self, final):
        return manual.delivered(self.words, self.lanes, self.chain, [*self.pieces, *final])

    def table(self):
        return [at for at, item in self.given(self.final()) if isinstance(item, tuple) for _ in range(*item)]

    def applied(self):
        for place, (kind, values, toxicity) in enumerate(self.chain):
            if manual.is_applied(self.words, place, toxicity):
                yield kind, values

    def is_settled(self):
        # One that begins behind some bytes alone may never begin.
        begins = [(kind, values) for kind, values in self.applied() if "timeout" in values and (values.get("from") or not values.get("after"))]
        due = [0 if kind == "timeout" else 1000 * values["timeout"] for kind, values in begins]
        known = any(isinstance(item, str) for _, item in self.given([]))
        return self.end is not None or known or min(due, default=HORIZON + 1) <= self.latest

    def line(self):
        link = f"{files.shown(self.name)} {self.number} {self.stream}"
        if self.unfaithful:
            return f"unfaithful {link} line {self.unfaithful}"
        counts = f"in {self.heard} out {self.said}"
        words = ["faithful", link, counts, self.ending] if self.ending else ["unfinished", link, counts]
        words.append(f"writes {self.writes}")
        if self.late:
            late = sorted(self.late)
            median, p99 = (late[-(-len(late) * part // 100) - 1] for part in (50, 99))
            words.append(f"late median {median} p99 {p99} max {late[-1]}")
        return " ".join(words)


def verdict(text):
    """The line that a log is printed as, or the number of the line that makes it no log."""
    log, lines = Log(), text.split(b"\n")[:-1]
    number = 0
    try:
        for number, line in enumerate(lines, 1):
            if number <= 3:
                log.read_header(number, line)
            elif line.startswith(b"toxic ") and not log.begun:
                log.chain.append(read_toxic(line))
                if len(log.chain) > log.lanes:
                    raise Bad
            elif not log.read_event(line) and log.unfaithful is None:
                log.unfaithful = number
    except Bad:
        return number
    return log.line() if len(lines) >= 3 else len(lines) + 1


def random_toxic(random):
    kind = random.choice(list(manual.TYPES))
    values = {}
    for key, (least, most) in manual.TYPES[kind].items():
        most = values["average_size"] - 1 if key == "size_variation" else most
        values[key] = min(most, random.choice((least, random.randrange(least, least + 8), random.randrange(least, least + 60))))
    return files.short_form(kind, values, random.choice((1000, 1000, 500, 300, 0)))


def random_log(random):
    """A log as a live link may write it."""
    name = random.choice(("shop", "a b", "é", "x\\x0a", "3 upstream", "\x9b\u202e"))
    lanes = random.choice((16, 32))
    head = ["toxi log 1", f"link {name} {random.randint(1, 1_000_000)} {random.choice(('upstream', 'downstream'))}"]
    head.append(f"lanes {lanes} seed {random.choice((0, 2, random.randrange(2**64)))}")
    names = ("slow", "a b", "x", "\x9b")
    head += [f"toxic {random_toxic(random)} {random.choice(names)}" for _ in range(random.choice((0, 1, 1, 2, 3)))]
    log, lines = Log(), list(head)
    for number, line in enumerate(head, 1):
        log.read_header(number, line.encode()) if number <= 3 else log.chain.append(read_toxic(line.encode()))

    def add(line):
        lines.append(line)
        log.read_event(line.encode())

    clock = 0
    for _ in range(random.randrange(25)):
        clock += random.choice((0, 0, 1, 500, 7919, 40_000))
        table = log.table()
        if log.said < len(table) and random.random() < 0.6:
            due = table[log.said]
            stop = log.said + 1
            while stop < len(table) and table[stop] == due and random.random() < 0.95:
                stop += 1
            clock = max(clock, due + random.choice((0, 0, 3, 70, 2000)))
            add(f"{clock} wrote {log.said}..{stop} {due}")
        elif log.end is None:
            add(random_end(random, clock) if random.random() < 0.1 else f"{clock} piece {random.choice((1, 2, 5, 40))}")
    finish(random, log, add, clock)
    return "".join(line + "\n" for line in lines).encode()


def random_end(random, clock):
    return f"{clock} end" + random.choice(("", " reset"))


def finish(random, log, add, clock):
    """Says what is left, and ends, where the ending is settled; or breaks off."""
    if log.end is None and random.random() < 0.7:
        add(random_end(random, clock))
    if random.random() < 0.15:
        return
    for start, stop, due in runs(log.table(), log.said):
        clock = max(clock, due + random.choice((0, 70)))
        add(f"{clock} wrote {start}..{stop} {due}")
    *_, (at, ending) = log.given(log.final())
    if random.random() < 0.1:
        add(f"broken {random.choice(('write', 'stopped'))} {log.said}")
    else:
        clock = max(clock, at or 0) + random.choice((0, 66))
        add(f"{clock} {ending}" if at is None else f"{clock} {ending} {at}")


def runs(table, start):
    while start < len(table):
        stop = start
        while stop < len(table) and table[stop] == table[start]:
            stop += 1
        yield start, stop, table[start]
        start = stop


def changed(random, log):
    """The log with one change."""
    lines = log.split(b"\n")
    place = random.randrange(len(lines) - 1)
    numbers = [*re.finditer(rb"[0-9]+", lines[place])]
    way = random.randrange(5)
    if way == 0:
        del lines[place]
    elif way == 1:
        lines.insert(place, lines[place])
    elif way == 2 and place + 2 < len(lines):
        lines[place], lines[place + 1] = lines[place + 1], lines[place]
    elif way == 3 and numbers:
        match = random.choice(numbers)
        number = max(0, int(match[0]) + random.choice((-1, 1, 1000, -1000)))
        lines[place] = lines[place][: match.start()] + str(number).encode() + lines[place][match.end() :]
    else:
        return texts.changed(random, log.decode(), [*" \n\r0.x", "0", "\n\n", " end\n", " reset"], 1).encode()
    return b"\n".join(lines)
