"""What docs/PROFILE.md says of words, short forms, arrivals and results, as a plain reading of it."""
import re
from itertools import accumulate
from math import inf

from .toxics import HORIZON, give

MAX_MILLIS = 3_600_000
MAX_INPUT = 16_777_216
MAX_BYTES = 2**40

# The attributes of each type with their least and greatest values. A variation that is too large has a fault of its own.
TYPES = {
    "latency": {"latency": (0, MAX_MILLIS), "jitter": (0, MAX_MILLIS), "until": (0, MAX_MILLIS), "from": (0, MAX_MILLIS)},
    "bandwidth": {"rate": (1, 1_000_000), "until": (0, MAX_MILLIS), "from": (0, MAX_MILLIS)},
    "slow_close": {"delay": (0, MAX_MILLIS)},
    "timeout": {"timeout": (0, MAX_MILLIS), "from": (0, MAX_MILLIS), "after": (0, MAX_BYTES)},
    "reset_peer": {"timeout": (0, MAX_MILLIS), "after": (0, MAX_BYTES)},
    "slicer": {
        "average_size": (1, 1_000_000),
        "size_variation": (0, inf),
        "delay": (0, 3_600_000_000),
        "until": (0, MAX_MILLIS),
        "from": (0, MAX_MILLIS),
    },
    "limit_data": {"bytes": (0, MAX_BYTES)},
}
NAMES = {
    "A1": "TimeBack", "A2": "EmptyPiece", "A3": "TooManyBytes", "A4": "AfterEnd",
    "L1": "BadLine", "L2": "TooLong", "L3": "ReadFault", "L4": "WriteFault",
    "W1": "NoWords", "W2": "TooMany", "W3": "BadWord",
    "Q1": "BadForm", "Q2": "DoubleKey", "S1": "NotToml", "S2": "Field", "S3": "UnknownType", "S4": "UnknownAttribute",
    "S5": "OutOfRange", "S6": "Variation", "S7": "ToxicityNotThousandths", "S8": "DoubleName", "S9": "TooManyToxics",
    "C1": "NotJson", "C2": "NotArray", "C3": "NotObject", "C4": "Name", "C5": "Listen", "C6": "Upstream", "C7": "Enabled",
    "C8": "TooMany", "P1": "FileFault", "P2": "FileTooLong", "P3": "UnknownProxy", "P4": "ListenRefused", "P5": "BadStream",
    "F1": "SpawnRefused", "M1": "AlreadyVersion2",
}  # fmt: skip


class Fault(Exception):
    """A fault, by its code and what stands behind its name."""

    def line(self):
        code, *rest = self.args
        return " ".join(["toxi:", code, NAMES[code], *map(str, rest)])


def read_words(text):
    """The words of `--words`."""
    if text == "":
        raise Fault("W1")
    parts = text.split(",")
    for place, part in enumerate(parts):
        if not re.fullmatch("[0-9]{1,10}", part) or int(part) > 4294967295:
            raise Fault("W3", place)
    if len(parts) > 4096:
        raise Fault("W2")
    return [int(part) for part in parts]


def check_values(kind, given, fault):
    """The values of a type's attributes, absent ones as 0. `given` are numbers, or None for what is none."""
    ranges = TYPES[kind]
    if any(key not in ranges for key in given):
        fault("S4")
    values = {key: given.get(key, 0) for key in ranges}
    if any(value is None or not ranges[key][0] <= value <= ranges[key][1] for key, value in values.items()):
        fault("S5")
    if kind == "slicer" and values["size_variation"] >= values["average_size"]:
        fault("S6")
    return values


def read_short(text, number):
    """A short form as (type, values, toxicity)."""

    def fault(code):
        raise Fault(code, number)

    match = re.fullmatch("([a-z_]+)(?::(.*))?", text, re.DOTALL)
    pairs = [] if match is None or match[2] is None else match[2].split(",")
    if match is None or not all(re.fullmatch("[a-z_]+=[0-9]{1,18}", pair) for pair in pairs):
        fault("Q1")
    kind = match[1]
    if kind not in TYPES:
        fault("S3")
    given = {}
    for pair in pairs:
        key, value = pair.split("=")
        if key in given:
            fault("Q2")
        given[key] = int(value)
    toxicity = given.pop("toxicity", 1000)
    if toxicity > 1000:
        fault("S7")
    return kind, check_values(kind, given, fault), toxicity


def read_chain(texts, lanes):
    chain = []
    for place, text in enumerate(texts):
        toxic = read_short(text, place + 1)
        if place >= lanes:
            raise Fault("S9", place + 1)
        chain.append(toxic)
    return chain


def read_arrivals(text):
    """The pieces of an arrivals text as (instant, bytes), and the instant of its end or None."""
    if len(text) > MAX_INPUT:
        raise Fault("L2")
    pieces, last, end, count = [], 0, None, 0
    for number, line in enumerate(text.split(b"\n"), 1):
        if line == b"":
            continue
        match = re.fullmatch(rb"([0-9]{1,16}) (?:eof|data ((?:[0-9a-fA-F]{2})*))", line)
        if match is None or int(match[1]) > HORIZON:
            raise Fault("L1", number)
        instant, piece = int(match[1]), match[2]
        piece = None if piece is None else bytes.fromhex(piece.decode())
        if instant < last:
            raise Fault("A1", number)
        if piece == b"":
            raise Fault("A2", number)
        if piece is not None and count + len(piece) > MAX_BYTES:
            raise Fault("A3", number)
        if end is not None:
            raise Fault("A4", number)
        last = instant
        if piece is None:
            end = instant
        else:
            count += len(piece)
            pieces.append((instant, piece))
    return pieces, end


def is_applied(words, place, toxicity):
    return words[place % len(words)] % 1000 < toxicity


def delivered(words, lanes, chain, items):
    """What a chain of so many lanes gives of a list of items."""
    for place, (kind, values, toxicity) in enumerate(chain):
        if is_applied(words, place, toxicity):
            items = list(give(kind, values, lambda j, lane=place: words[(lane + lanes * j) % len(words)], items))
    return items


def result_text(words, lanes, chain, pieces, end):
    """What `dry` prints."""
    text = b"".join(piece for _, piece in pieces)
    stops = list(accumulate(len(piece) for _, piece in pieces))
    items = [(instant, (stop - len(piece), stop)) for (instant, piece), stop in zip(pieces, stops)]
    *items, (instant, ending) = delivered(words, lanes, chain, [*items, (end, "open" if end is None else "closed")])
    runs = []
    for at, (start, stop) in items:
        if runs and runs[-1][0] == at and start not in stops:
            runs[-1][2] = stop
        else:
            runs.append([at, start, stop])
    lines = [f"{at} {start}..{stop} {text[start:stop].hex()}" for at, start, stop in runs]
    lines.append(ending if instant is None else f"{ending} {instant}")
    return "".join(line + "\n" for line in lines)


def words_of_seed(seed, conn, stream):
    """PCG32, as its author published it, from the seed and a sequence."""
    mask = 2**64 - 1
    increment = (2 * (2 * conn + (stream == "downstream")) | 1) & mask
    state = (seed + increment) & mask
    state = (state * 6364136223846793005 + increment) & mask
    words = []
    for _ in range(1024):
        shifted = ((state >> 18) ^ state) >> 27 & 0xFFFFFFFF
        turn = state >> 59
        words.append((shifted >> turn | shifted << (-turn & 31)) & 0xFFFFFFFF)
        state = (state * 6364136223846793005 + increment) & mask
    return words
