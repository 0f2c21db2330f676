"""Random texts that the program reads: good ones, and good ones with some parts changed."""
from .manual import TYPES

TOXICITIES = [0, 1, 300, 500, 999, 1000, "1_000"]
TOXICITY_TEXTS = list(map(repr, ("0", "1", "0.25", "0.007", "1.00")))
NO_TOXICITIES = [-1, 1001, 0.5, *map(repr, ("1.001", ".5", "0.0005"))]
NUMBERS = ["0", "1", "2", "1000", "65535", "65536", "999999", "1000000", "3600000", "3600001", "4294967295", "4294967296", "1" * 19]


def changed(random, text, pool, chance):
    """The text, or by chance one with one to three changes: a part dropped, repeated, replaced or cut off, or one put in."""
    if random.random() >= chance:
        return text
    for _ in range(random.choice((1, 1, 2, 3))):
        start = random.randrange(len(text) + 1)
        stop = min(len(text), start + random.choice((0, 1, 1, 2, 8)))
        put = random.choice((text[:0], random.choice(pool), text[start:stop] * 2))
        text = text[:start] + put + (text[:0] if random.random() < 0.05 else text[stop:])
    return text


def number(random, least, most):
    """One of the range, mostly a small one or one at its edges."""
    return random.choice((least, most, least + 1, most - 1, *(random.randint(least, min(most, least + 40)) for _ in range(12))))


def mostly(random, good, bad, chance):
    """One of the good ones, or by chance one of the bad."""
    return random.choice(bad if random.random() < chance else good)


def values(random, kind, chance):
    """Some attributes of a type. By chance one is just out of its range, or belongs to no type. Most timeouts begin at once."""
    chosen = {}
    for key, (least, most) in TYPES[kind].items():
        if key == "size_variation":
            most = chosen["average_size"] - 1
        if least or random.random() < (0.3 if key in ("from", "after") else 0.7):
            chosen[key] = number(random, least, most)
        if random.random() < chance:
            chosen[key] = most + 1
        if random.random() < chance / 4:
            chosen[random.choice(("rat", "rate", "delay", "from", "after"))] = 1
    return chosen


def words(random):
    text = ",".join(str(number(random, 0, 4294967295)) for _ in range(random.choice((1, 2, 5, 17, 40))))
    return mostly(random, [changed(random, text, [*", 09a-é", *NUMBERS], 0.05)], ["", "0," * 4096 + "0"], 0.02)


def short_form(random, chance):
    """A short form, by chance with a fault."""
    kind = mostly(random, list(TYPES), ["noop"], chance / 4)
    pairs = values(random, kind, chance / 3) if kind in TYPES else {}
    if random.random() < 0.3:
        pairs["toxicity"] = mostly(random, (0, 1, 300, 500, 999, 1000), [1001], chance)
    pairs = [f"{key}={value}" for key, value in pairs.items()]
    random.shuffle(pairs)
    if random.random() < chance / 3:
        pairs += pairs[:1]
    return changed(random, kind + (":" if pairs else "") + ",".join(pairs), [*":,=_ az09é\n", *NUMBERS, *TYPES], chance / 2)


def arrivals(random):
    lines, instant = [], 0
    for _ in range(random.randrange(9)):
        instant += random.choice((0, 0, 1, 500, 1000, 7919, 40_000, 10**14))
        lines.append(f"{instant} data {random.randbytes(random.choice((1, 1, 2, 3, 40))).hex()}")
    if random.random() < 0.6:
        lines.append(f"{instant + random.randrange(50_000)} eof")
    late = instant + 50_000
    lines += mostly(random, [[]], [["0 data 61"], [f"{late} data "], [f"{late} eof", f"{late} eof"]], 0.06)
    text = "\n".join(lines) + ("\n" if random.random() < 0.9 else "")
    pool = [*" \n\r\0\xff0Ag-", "eof", " data ", "5 data 61\n", "9 eof\n"]
    return changed(random, text, pool, 0.08).encode("latin-1")


def quoted(text):
    """A text in quotes, for JSON and for TOML."""
    return '"' + "".join(c if " " <= c != "\x7f" and c not in '"\\' else f"\\u{ord(c):04x}" for c in text) + '"'


def proxy_names(random):
    count = mostly(random, (1, 1, 1, 2, 3, 3, 64), [65], 0.02)
    names = [random.choice(("shop", "mail", "né", "the\nshop", "\x9b\xa0\u202e", 'a "b"\\', "x" * 255)) for _ in range(count)]
    return names if count < 64 else [f"shop {place}" for place in range(count)]


def address(random, chance):
    """An address, by chance one that is too long or has no port."""
    host = random.choice(("", "localhost", "127.0.0.1", "[::1]", "a:b", "http://localhost", "x" * 249))
    good = f"{host}:{random.choice((0, 1, 80, 8080, 65535, '00080'))}"
    return mostly(random, [good], ["x" * 254 + ":1", "localhost", "localhost:65536"], chance)


def member(random, key, good, bad, chance):
    """A member of an object, by chance with a value that is refused."""
    return f'"{key}": {mostly(random, good, bad, chance)}'


def populate(random, names):
    """A populate file with an object for each name."""
    chance = 0.03 / len(names)
    objects = []
    for name in names:
        members = [member(random, "name", [quoted(name)], ["null", quoted("x" * 256)], chance)]
        members.append(member(random, "upstream", [quoted(address(random, chance))], ["null", "1"], chance))
        if random.random() < 0.6:
            members.append(member(random, "listen", ["null", quoted(""), quoted(address(random, chance))], ["1"], chance))
        if random.random() < 0.5:
            members.append(member(random, "enabled", ["true", "false", "null"], ["1"], chance))
        if random.random() < 0.2:
            members.append(random.choice(('"other"', '"listn"', '"toxics"', '"\\u009b"')) + ': [{"a": [1, -2.5e3, "\\u00e9"]}]')
        random.shuffle(members)
        objects.append(mostly(random, ["{" + ", ".join(members) + "}"], ["1", "null"], chance))
    pool = [*'[]{}",: \n\\09-e', "null", "true", '"name"', '"listen"', '"x":', "\t", "é", "1e5", "{}"]
    text = "[" + random.choice((", ", ",\n ")).join(objects) + "]"
    return changed(random, mostly(random, [text], ["{}", "1"], 0.02), pool, 0.05).encode()


def toxic(random, place, version, chance):
    """The lines of a script's toxic, by chance with a fault."""
    kind = random.choice(list(TYPES))
    lines = [f'type = "{mostly(random, [kind], ["noop"], chance / 2)}"']
    pairs = ", ".join(f"{key} = {value}" for key, value in values(random, kind, chance / 3).items())
    lines.append(f"attributes = {{ {pairs} }}")
    if random.random() < 0.3:
        lines.append(f'stream = "{random.choice(("upstream", "downstream"))}"')
    if random.random() < 0.3:
        good = TOXICITIES + TOXICITY_TEXTS if version == 2 else TOXICITIES
        lines.append(f"toxicity = {mostly(random, good, NO_TOXICITIES, chance)}")
    if random.random() < 0.8 or place > 1:
        name = random.choice(("né", "a b", "x" * 61, "\x9b31m", "\u202e \xa0")) + f" {place}"
        lines.append(f"name = {quoted(mostly(random, [name], ['né 0', 'x' * 65], chance))}")
    random.shuffle(lines)
    return ["[[rule.toxic]]", *lines]


def script(random, names, versions=(None, 1, 2)):
    """A script whose rules are for these proxies and for others, by chance with a fault."""
    lines = ["# A script."]
    version = random.choice(versions)
    if version:
        lines.append(f"version = {mostly(random, [version], [3], 0.02)}")
    lanes = random.choice((None, 16, 32)) if version == 2 else 16
    if version == 2 and lanes:
        lines.append(f"lanes = {mostly(random, [lanes], [17], 0.02)}")
    for _ in range(random.randrange(4)):
        first = number(random, 1, 1_000_000)
        fields = [f"proxy = {quoted(random.choice([*names, 'none']))}", f"first = {first}"]
        if random.random() < 0.4:
            fields.append(f"last = {mostly(random, [number(random, first, 1_000_000)], [first - 1], 0.03)}")
        random.shuffle(fields)
        lines += ["[[rule]]", *fields]
        count = mostly(random, (0, 1, 1, 1, 2, 2, 3, 3, lanes or 32), [40], 0.02)
        for place in range(count):
            lines += toxic(random, place, version, 0.08 / count)
    pool = [*'[]{}",=#. \n\\09-e', "[[rule]]", "[rule]", "rule", "first = 1\n", "x = 1\n", "'''", "1979-05-27", "inf", "true", "é"]
    return changed(random, "\n".join(lines) + "\n", pool, 0.05).encode()
