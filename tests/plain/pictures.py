"""What docs/DRAW.md says of the picture of a link, as a plain reading of it."""
import os
import re

from . import logs, manual

HERE = os.path.dirname(os.path.abspath(__file__))

WIDE, HIGH, LEFT = 750, 320, 64
TIMES = [("us", 1), ("ms", 1000), ("s", 1_000_000)]
BYTES = [("B", 1), ("KB", 1000), ("MB", 1_000_000), ("GB", 1_000_000_000)]
MARKS = {"reset": "reset", "broken": "reset", "no end": "reset", "closed": "closed", "open": "open"}


def style():
    """The lines between `<style>` and `</style>` of the document, with both."""
    with open(os.path.join(HERE, "..", "..", "docs", "DRAW.md"), encoding="ascii") as file:
        return re.search("^<style>.*?</style>$", file.read(), re.DOTALL | re.MULTILINE)[0].split("\n")


def escaped(text):
    return text.replace("&", "&amp;").replace("<", "&lt;").replace(">", "&gt;").replace('"', "&quot;")


def form(toxic, applied):
    """The short form of a toxic."""
    kind, values, toxicity = toxic
    pairs = [f"{key}={value}" for key, value in values.items() if value]
    pairs += [f"toxicity={toxicity}"] if toxicity != 1000 else []
    text = kind + (":" if pairs else "") + ",".join(pairs)
    return text if applied else f"({text})"


class Axis:
    """The axis of a greatest value."""

    def __init__(self, greatest):
        greatest = max(greatest, 1)
        steps = (one * 10**power for power in range(17) for one in (1, 2, 5))
        self.step = next(step for step in steps if -(-greatest // step) <= 8)
        self.count = -(-greatest // self.step)
        self.end = self.step * self.count


def unit(value, units):
    return [one for one in units if one[1] <= value or one[1] == 1][-1]


def figure(value, size):
    whole, rest = value // size, value % size * 1000 // size
    return f"{whole}.{rest:03}".rstrip("0") if whole < 1000 and rest else str(whole)


def quantity(value, units):
    name, size = unit(value, units)
    return f"{figure(value, size)} {name}"


class Line:
    """Counts by column, with the y of each."""

    def __init__(self, pieces, column, height):
        counts = [0] * (WIDE + 1)
        for instant, count in pieces:
            counts[column(instant)] += count
        so_far = 0
        self.ys = []
        for count in counts:
            so_far += count
            self.ys.append(height(so_far))

    def path(self, base, end):
        x, y, text = LEFT, base, f"M{LEFT} {base}"
        for column in range(end + 1):
            if self.ys[column] != y:
                text += f"H{LEFT + column}" if x != LEFT + column else ""
                x, y = LEFT + column, self.ys[column]
                text += f"V{y}"
        return text + (f"H{LEFT + end}" if x != LEFT + end else "")


def area(upper, lower, base, end):
    return f"{upper.path(base, end)}V{base}Z{lower.path(base, end)}V{base}Z"


def place(upper, lower, end, half, least):
    rooms = {c: max(lower.ys[c + half] - upper.ys[c - half], 0) for c in range(half, end - half + 1)}
    if not rooms or max(rooms.values()) < least:
        return None
    room = max(rooms.values())
    first = last = min(c for c in rooms if rooms[c] == room)
    while rooms.get(last + 1) == room:
        last += 1
    middle = (first + last) // 2
    return LEFT + middle, upper.ys[middle - half] + room // 2


def heading(forms):
    """The lines of the heading."""
    if not forms:
        return ["no toxics"]
    cut = [one if len(one) <= 94 else one[:91] + "..." for one in forms]
    lines, lengths = [escaped(cut[0])], [len(cut[0])]
    for number, one in enumerate(cut[1:], 1):
        limit = 96 if len(lines) == 3 else 108
        if lengths[-1] + 3 + len(one) <= limit:
            lines[-1] += f" &#8594; {escaped(one)}"
            lengths[-1] += 3 + len(one)
        elif len(lines) == 3:
            lines[-1] += f" + {len(cut) - number} more"
            break
        else:
            lines.append(f"&#8594; {escaped(one)}")
            lengths.append(2 + len(one))
    return lines


def told(word, pieces):
    total = sum(count for _, count in pieces)
    return f"{word} {total} B, the last at {pieces[-1][0]} us." if total else f"{word} 0 B."


def picture(forms, arrivals, eof, due, ending, written=None, real=None, was_reset=False):
    """The text of a picture. Lists hold instants with counts, endings are a word with an instant or None."""
    real = ending if written is None else real
    shown = due if written is None else written
    arrived, left = (sum(count for _, count in one) for one in (arrivals, shown))
    instants = [instant for one in (arrivals, due, shown) for instant, _ in one]
    instants += [instant for instant in (eof, ending[1], real[1]) if instant is not None]
    latest = max([0, *(instant for instant in instants if written is None or instant < logs.HORIZON)])
    time, amount = Axis(latest), Axis(arrived)
    lines = heading(forms)
    top = 56 + 20 * len(lines)
    base = top + HIGH

    def column(instant):
        return WIDE if instant is None else min(instant * WIDE // time.end, WIDE)

    def height(count):
        return base - count * HIGH // amount.end

    A, D, W = (Line(one, column, height) for one in (arrivals, due, shown))
    xs, xe = LEFT + column(eof), LEFT + column(real[1])
    real_end, due_end = column(real[1]), column(ending[1])
    sentences = ["Bytes over time.", told("Arrived", arrivals)]
    told_end = "was reset" if was_reset else "ended"
    sentences.append("The source stayed quiet." if eof is None else f"The source {told_end} at {eof} us.")
    if written is None:
        sentences.append(told("Left", due))
    else:
        sentences += [told("Due", due), told("Written", written)]
    sentences.append("The link stayed open." if real[1] is None else f"The link ended {real[0]} at {real[1]} us.")
    text = [
        f'<svg xmlns="http://www.w3.org/2000/svg" class="toxi-draw" width="960" height="{base + 44}" viewBox="0 0 960 {base + 44}"'
        ' role="img" aria-labelledby="toxi-title toxi-desc">',
        f'<title id="toxi-title">{", then ".join(map(escaped, forms)) or "no toxics"}</title>',
        f'<desc id="toxi-desc">{" ".join(sentences)}</desc>',
        *style(),
        f'<rect class="paper" width="960" height="{base + 44}"/>',
    ]
    text += [f'<text class="chain" x="64" y="{32 + 20 * i}">{line}</text>' for i, line in enumerate(lines)]
    for i in range(amount.count + 1):
        name, size = unit(amount.end, BYTES)
        y = base - i * HIGH // amount.count
        label = figure(i * amount.step, size) + (f" {name}" if i == amount.count else "")
        text += [f'<path class="grid" d="M64 {y}H814"/>'] if i else []
        text.append(f'<text class="end" x="54" y="{y + 4}">{label}</text>')
    for i in range(time.count + 1):
        name, size = unit(time.end, TIMES)
        x = LEFT + i * WIDE // time.count
        label = figure(i * time.step, size) + (f" {name}" if i == time.count else "")
        text.append(f'<path class="axis" d="M{x} {base}V{base + 5}"/>')
        text.append(f'<text class="mid" x="{x}" y="{base + 22}">{label}</text>')
    text.append(f'<path class="held" d="{area(A, D, base, due_end)}"/>')
    if written is not None:
        text.append(f'<path class="late" d="{area(D, W, base, real_end)}"/>')
    text.append(f'<path class="axis" d="M64 {base}H814"/>')
    if real[0] != "open":
        text.append(f'<path class="axis" d="M{xe} {top}V{base}"/>')
    if written is None:
        text.append(f'<path class="left" d="{D.path(base, real_end)}"/>')
    else:
        text.append(f'<path class="due" d="{D.path(base, due_end)}"/>')
        text.append(f'<path class="written" d="{W.path(base, real_end)}"/>')
    text.append(f'<path class="arrived" d="{A.path(base, column(eof))}"/>')
    if eof is not None:
        text.append(f'<circle class="arrived" cx="{xs}" cy="{height(arrived)}" r="3"/>')
    y = height(left)
    text.append(
        {
            "open": f'<path class="mark" d="M{xe} {y - 5}L{xe + 5} {y}L{xe} {y + 5}"/>',
            "closed": f'<circle class="mark" cx="{xe}" cy="{y}" r="3"/>',
            "reset": f'<path class="mark" d="M{xe - 5} {y - 5}L{xe + 5} {y + 5}M{xe - 5} {y + 5}L{xe + 5} {y - 5}"/>',
        }[MARKS[real[0]]]
    )
    held = place(A, D, due_end, 96, 80) or place(A, D, due_end, 64, 50) or place(A, D, due_end, 32, 22)
    if held:
        text.append(f'<text class="mid" x="{held[0]}" y="{held[1] + 4}">held</text>')
    late = written is not None and place(D, W, real_end, 20, 20)
    if late:
        text.append(f'<text class="mark mid" x="{late[0]}" y="{late[1] + 4}">late</text>')
    label = f"arrived {quantity(arrived, BYTES)}{', then reset' if was_reset else ''}"
    above = min(height(arrived) - 9, base - (40 if written is None else 56))
    if xs - LEFT < 8 * len(label):
        text.append(f'<text class="arrived halo" x="72" y="{above}">{label}</text>')
    else:
        text.append(f'<text class="arrived halo end" x="{xs}" y="{above}">{label}</text>')
    if written is None:
        labels = [("left", f"left {quantity(left, BYTES)}")]
    else:
        labels = [("due", f"due {quantity(sum(count for _, count in due), BYTES)}"), ("written", f"written {quantity(left, BYTES)}")]
    labels.append(("mark", real[0] if real[1] is None else f"{real[0]} {quantity(real[1], TIMES)}"))
    below = min(y + 18, base - 22 - 16 * (len(labels) - 2))
    for i, (kind, label) in enumerate(labels):
        text.append(f'<text class="{kind} halo" x="{xe + 9}" y="{below + 16 * i}">{label}</text>')
    return "".join(line + "\n" for line in [*text, "</svg>"])


def flow(words, lanes, chain, arrivals, eof):
    """The slices that leave, as instants with counts, and the ending."""
    items, start = [], 0
    for instant, count in arrivals:
        items.append((instant, (start, start + count)))
        start += count
    items.append((eof, "open" if eof is None else "closed"))
    *given, (instant, ending) = manual.delivered(words, lanes, chain, items)
    return [(at, stop - start) for at, (start, stop) in given], (ending, instant)


def forms_of(words, chain):
    return [form(toxic, manual.is_applied(words, at, toxic[2])) for at, toxic in enumerate(chain)]


def drawn(arguments, text):
    """What `draw` prints with these options and toxics."""
    words, lanes, toxics = [0], 16, []
    rest = iter(arguments)
    for argument in rest:
        if argument == "--words":
            words = manual.read_words(next(rest))
        elif argument == "--lanes":
            lanes = int(next(rest))
        else:
            toxics.append(argument)
    chain = manual.read_chain(toxics, lanes)
    pieces, eof = manual.read_arrivals(text)
    arrivals = [(instant, len(piece)) for instant, piece in pieces]
    return picture(forms_of(words, chain), arrivals, eof, *flow(words, lanes, chain, arrivals, eof))


def recorded(text):
    """What `draw --log` prints of a log that replay calls faithful or unfinished."""
    log, lines = logs.Log(), text.split(b"\n")[:-1]
    written, real, latest = [], None, 0
    for number, line in enumerate(lines, 1):
        if number <= 3:
            log.read_header(number, line)
        elif line.startswith(b"toxic ") and not log.begun:
            log.chain.append(logs.read_toxic(line))
        else:
            log.read_event(line)
            if match := logs.WROTE.fullmatch(line):
                reading, start, stop, _ = map(int, match.groups())
                written.append((reading, stop - start))
            if match := logs.ENDED.fullmatch(line):
                word = match[2].decode()
                real = word, None if word == "open" else int(match[1])
            latest = log.latest
            if line.startswith(b"broken "):
                real = "broken", latest
    arrivals = [(instant, stop - start) for instant, (start, stop) in log.pieces]
    due = flow(log.words, log.lanes, log.chain, arrivals, log.end)
    return picture(forms_of(log.words, log.chain), arrivals, log.end, *due, written, real or ("no end", latest), log.was_reset)
