"""What docs/SCRIPTS.md says of populate files, scripts, picks and forecasts, as a plain reading of it."""
import json
import re
import tomllib
from collections import Counter

from .manual import TYPES, Fault, check_values, is_applied, words_of_seed
from .toxics import delays_nothing, drops_all

STREAMS = ("upstream", "downstream")


def is_number(value, least, most):
    return type(value) is int and least <= value <= most


def is_text(value, most):
    return isinstance(value, str) and 1 <= len(value.encode()) <= most


# The members of an object of a populate file, and those that Toxiproxy prints beside them.
MEMBERS = ("name", "listen", "upstream", "enabled")
TOXIPROXYS = ("toxics", "Logger")


def is_tables(value):
    return isinstance(value, list) and all(isinstance(table, dict) for table in value)


def is_address(value):
    return (
        isinstance(value, str)
        and len(value) <= 255
        and re.fullmatch("[\x21-\x7e]*:[0-9]{1,5}", value) is not None
        and int(value.rpartition(":")[2]) <= 65535
    )


def depth_of(value):
    if isinstance(value, dict):
        value = list(value.values())
    return 1 + max(map(depth_of, value), default=0) if isinstance(value, list) else 0


def no_constant(text):
    raise ValueError(text)


def read_json(text):
    try:
        value = json.loads(text.decode(), parse_constant=no_constant)
        json.dumps(value, ensure_ascii=False).encode()
        if depth_of(value) > 127:
            raise ValueError("depth")
    except (ValueError, RecursionError):
        raise Fault("C1") from None
    return value


def read_populate(text):
    """The proxies by name."""
    value = read_json(text)
    if not isinstance(value, list):
        raise Fault("C2")
    proxies = {}
    for place, proxy in enumerate(value):
        if not isinstance(proxy, dict):
            raise Fault("C3", place)
        name, listen, enabled = (proxy.get(key) for key in ("name", "listen", "enabled"))
        if not is_text(name, 255):
            raise Fault("C4", place)
        if listen not in (None, "") and not is_address(listen):
            raise Fault("C5", place)
        if not is_address(proxy.get("upstream")):
            raise Fault("C6", place)
        if enabled is not None and not isinstance(enabled, bool):
            raise Fault("C7", place)
        if name not in proxies and len(proxies) == 64:
            raise Fault("C8", place)
        proxies[name] = (listen or "localhost:0", proxy["upstream"], enabled is not False)
    return proxies


def check_fields(table, tests, rule, toxic):
    """The first field that fails its test, or one that doesn't belong there."""
    for field, test in tests.items():
        if not test(table.get(field)):
            raise Fault("S2", rule, toxic, field)
    if not tests.keys() >= table.keys():
        raise Fault("S2", rule, toxic, "unknown")


def is_name(value):
    return value is None or is_text(value, 64) and not re.search("[\0-\x1f\x7f]", value)


def read_toxicity(value, version):
    """The thousandths of a toxicity, or None for what is none."""
    if version == 2 and isinstance(value, str) and re.fullmatch(r"0(\.[0-9]{1,3})?|1(\.0{1,3})?", value):
        return round(1000 * float(value))
    return value if is_number(value, 0, 1000) else None


def read_toxic(table, settings, rule, number, chains, names, order):
    version, lanes = settings
    tests = {
        "name": is_name,
        "type": lambda value: isinstance(value, str),
        "stream": lambda value: value is None or isinstance(value, str) and value in STREAMS,
        "toxicity": lambda _: True,
        "attributes": lambda value: value is None or isinstance(value, dict),
    }
    check_fields(table, tests, rule, number)

    def fault(code):
        raise Fault(code, rule, number)

    kind, stream = table["type"], table.get("stream", "downstream")
    toxicity = read_toxicity(table.get("toxicity", 1000), version)
    if kind not in TYPES:
        fault("S3")
    if toxicity is None:
        fault("S7")
    given = {key: value if type(value) is int else None for key, value in table.get("attributes", {}).items()}
    values = check_values(kind, given, fault)
    name = table.get("name", f"{kind}_{stream}")
    if name in names:
        fault("S8")
    if len(chains[stream]) == lanes:
        fault("S9")
    names.add(name)
    order.append((stream, len(chains[stream]), isinstance(table.get("toxicity"), str)))
    chains[stream].append((name, (kind, values, toxicity)))


def read_rule(table, settings, number):
    """A rule as its proxy, its first and last connection, a chain for each stream, and in the file's order the stream and place of
    each toxic, and whether its toxicity is a text."""
    first = table.get("first")
    tests = {
        "proxy": lambda value: is_text(value, 255),
        "first": lambda value: is_number(value, 1, 1_000_000),
        "last": lambda value: value is None or is_number(value, first, 1_000_000),
        "toxic": lambda value: value is None or is_tables(value),
    }
    check_fields(table, tests, number, 0)
    chains, names, order = {stream: [] for stream in STREAMS}, set(), []
    for place, toxic in enumerate(table.get("toxic", []), 1):
        read_toxic(toxic, settings, number, place, chains, names, order)
    return table["proxy"], first, table.get("last", 1_000_000), chains, order


def check_integers(value):
    """Whole numbers have 64 bits."""
    for part in value.values() if isinstance(value, dict) else value if isinstance(value, list) else []:
        check_integers(part)
    if type(value) is int and not -(2**63) <= value < 2**63:
        raise ValueError(value)


def read_script(text):
    """The version and the lanes of a script, and its rules."""
    try:
        document = tomllib.loads(text.decode())
        check_integers(document)
    except (ValueError, RecursionError):
        raise Fault("S1") from None
    version = document.get("version", 1)
    tests = {"version": lambda value: value is None or is_number(value, 1, 2)}
    if version == 2:
        tests["lanes"] = lambda value: value is None or type(value) is int and value in (16, 32)
    tests["rule"] = lambda value: value is None or is_tables(value)
    check_fields(document, tests, 0, 0)
    settings = version, document.get("lanes", 32) if version == 2 else 16
    return *settings, [read_rule(table, settings, number) for number, table in enumerate(document.get("rule", []), 1)]


def migrated(script):
    """What a migrated script reads as."""
    version, lanes, rules = read_script(script)
    if version == 2:
        raise Fault("M1")
    return 2, lanes, rules


def shown(name):
    name = re.sub("[\0-\x1f\x7f-\x9f]", lambda match: f"\\x{ord(match[0]):02x}", name)
    return re.sub("[\u202a-\u202e\u2066-\u2069]", lambda match: f"\\u{ord(match[0]):04x}", name)


def short_form(kind, values, toxicity):
    shown_values = {key: value for key, value in values.items() if key not in ("until", "from", "after") or value}
    return kind + ":" + ",".join(f"{key}={value}" for key, value in {**shown_values, "toxicity": toxicity}.items())


def pick_text(config, script, proxy, conn, stream, seed):
    """What `pick` prints. The files are their bytes, or None where they can't be read."""
    if stream not in STREAMS:
        raise Fault("P5")
    proxies = read_populate(config)
    _, _, rules = read_script(script)
    if proxy not in proxies:
        raise Fault("P3", shown(proxy))
    listen, upstream, enabled = proxies[proxy]
    lines = [f"proxy {shown(proxy)} listen {listen} upstream {upstream} {'enabled' if enabled else 'disabled'}"]
    chain = next((rule[3][stream] for rule in rules if rule[0] == proxy and rule[1] <= conn <= rule[2]), [])
    words = words_of_seed(seed, conn, stream)
    for place, (name, toxic) in enumerate(chain):
        applied = "applied" if is_applied(words, place, toxic[2]) else "skipped"
        lines.append(f"{place} {applied} {short_form(*toxic)} {shown(name)}")
    return "".join(line + "\n" for line in lines)


def forecast_text(config, script, proxy, links, seed, stream=None, named=None):
    """What `forecast` prints."""
    if stream not in (None, *STREAMS):
        raise Fault("P5")
    proxies = read_populate(config)
    _, _, rules = read_script(script)
    if proxy not in proxies:
        raise Fault("P3", shown(proxy))
    lines, met, applied = [], Counter(), Counter()
    for conn in range(1, links + 1):
        number = next((number for number, rule in enumerate(rules, 1) if rule[0] == proxy and rule[1] <= conn <= rule[2]), 0)
        met[number] += 1
        for side in STREAMS:
            chain = rules[number - 1][3][side] if number else []
            words = words_of_seed(seed, conn, side) if chain else []
            places = [place for place, (_, toxic) in enumerate(chain) if is_applied(words, place, toxic[2])]
            applied.update((number, side, place) for place in places)
            if stream in (None, side) and (named is None or named in [chain[place][0] for place in places]):
                lines.append(f"{conn} {side} rule {number} applied" + "".join(f" {place}" for place in places))
    for number, rule in enumerate(rules, 1):
        for toxic, (side, place, _) in enumerate(rule[4] if met[number] else [], 1):
            name = rule[3][side][place][0]
            lines.append(f"rule {number} toxic {toxic} applied {applied[number, side, place]} of {met[number]} {shown(name)}")
    return "".join(line + "\n" for line in lines)


LAST = 1_000_000


def osa(a, b):
    """How many letters are put in, left out, changed or swapped with the next one."""
    rows = [list(range(len(b) + 1))]
    for i, x in enumerate(a, 1):
        row = [i]
        for j, y in enumerate(b, 1):
            row.append(min(rows[i - 1][j] + 1, row[j - 1] + 1, rows[i - 1][j - 1] + (x != y)))
            if i > 1 and j > 1 and x == b[j - 2] and a[i - 2] == y:
                row[j] = min(row[j], rows[i - 2][j - 2] + 1)
        rows.append(row)
    return rows[-1][-1]


def near(name, proxies):
    """The name in brackets behind one that isn't there."""
    for distance in (1, 2):
        for other in proxies:
            if osa(name, other) == distance and 2 * distance < len(name):
                return f" ({shown(other)}?)"
    return ""


def winners(rules, number, proxy):
    """The runs of a rule's connections, each with the rule that they meet."""
    first, last = rules[number - 1][1], min(rules[number - 1][2], LAST)
    bounds = {first} | {bound for rule in rules for bound in (rule[1], rule[2] + 1) if first < bound <= last}
    runs = []
    for begin, end in zip(sorted(bounds), [*sorted(bounds)[1:], last + 1]):
        winner = next(n for n, rule in enumerate(rules, 1) if rule[0] == proxy and rule[1] <= begin <= rule[2])
        if runs and runs[-1][2] == winner:
            runs[-1][1] = end - 1
        else:
            runs.append([begin, end - 1, winner])
    return runs


def ranged(run):
    return f"{run[0]}" + (" on" if run[1] == LAST else f" to {run[1]}" if run[0] < run[1] else "")


def and_more(runs):
    return f", and {len(runs) - 8} more" if len(runs) > 8 else ""


def coverage(rules, number, proxy):
    """What is told of a rule's connections."""
    runs = winners(rules, number, proxy)
    own, taken = [run for run in runs if run[2] == number], [run for run in runs if run[2] != number]
    if not own:
        low, high = min(run[2] for run in taken), max(run[2] for run in taken)
        return ["never applies: " + (f"rule {low} covers" if low == high else f"rules {low} to {high} cover") + " its connections"]
    if not taken:
        return []
    parts = []
    for run, after in zip(taken[:8], [*taken[1:8], None]):
        parts.append(ranged(run) + ("" if after and after[2] == run[2] else f" meet rule {run[2]}"))
    gets = ", ".join(map(ranged, own[:8])) + and_more(own)
    return [f"applies to {gets} only: connections {', '.join(parts)}{and_more(taken)}"]


def idleness(chain, place):
    """Why the toxic at a place changes nothing, if that is told."""
    kind, values, _ = chain[place][1]
    drops = [entry[1][2] == 1000 and drops_all(*entry[1][:2]) for entry in chain]
    if delays_nothing(kind, values):
        return "it delays nothing"
    if kind in ("latency", "bandwidth", "slicer") and 0 < values["until"] <= values["from"]:
        return "it has stopped when it begins"
    if any(drops[place + 1 :]) or kind in ("bandwidth", "slicer") and any(drops[:place]):
        return "a timeout drops all data"
    if kind == "slicer" and values["delay"] == 0 and place + 1 == len(chain):
        return "it cuts without delay, and is the last"
    return None


def toxic_lines(chains, order):
    """What is told of the toxics of a rule."""
    for toxic, (side, place, is_decimal) in enumerate(order, 1):
        why = idleness(chains[side], place)
        if chains[side][place][1][2] == 0:
            yield f"toxic {toxic} never applies: toxicity 0"
        elif why:
            yield f"toxic {toxic} changes nothing: {why}"
        elif not is_decimal and chains[side][place][1][2] == 1:
            yield f"toxic {toxic} seldom applies: toxicity 1 is a thousandth"


def local_port(address):
    """The port of this machine that an address names, if it does."""
    host, _, port = address.partition(":")
    return port if host in ("", "localhost", "127.0.0.1", "0.0.0.0") else None


def proxy_lines(name, listen, upstream):
    """What is told of the addresses of an enabled proxy."""
    for which, text in (("listen", listen), ("upstream", upstream)):
        if text.partition(":")[2].startswith("//"):
            yield f"proxy {shown(name)} {which} has a scheme: {text}"
    if listen == upstream or local_port(listen) == local_port(upstream) is not None:
        yield f"proxy {shown(name)} upstream is its own address: {upstream}"


def noted_lines(values):
    """What is told of the members that aren't read, and of names that stand more than once."""
    unread = [(value["name"], key) for value in values for key in sorted(value, key=str.encode) if key not in MEMBERS]
    lines = [f"proxy {shown(name)} has an unknown member: {shown(key)}{near(key, MEMBERS)}" for name, key in unread if key not in TOXIPROXYS]
    if any(key in TOXIPROXYS for _, key in unread):
        lines.append("the file has toxics as Toxiproxy prints them, which aren't read: examples/from-toxiproxy makes a script of them")
    counts = Counter(value["name"] for value in values)
    return lines + [f"proxy {shown(name)} is defined {count} times: the last one counts" for name, count in counts.items() if count > 1]


def shared_lines(proxies):
    """Of each enabled proxy the first behind it that listens at its address."""
    enabled = [(name, listen) for name, (listen, _, enabled) in proxies.items() if enabled]
    for place, (name, listen) in enumerate(enabled):
        others = [other for other, there in enabled[place + 1 :] if there == listen]
        if others and listen.rpartition(":")[2].strip("0"):
            yield f"proxy {shown(others[0])} listens where proxy {shown(name)} does: {listen}"


def check_text(config, script, verbose):
    """What `check` prints, and how many warnings that are."""
    proxies = read_populate(config)
    _, _, rules = read_script(script)
    lines = noted_lines(read_json(config))
    lines += [line for name, (listen, upstream, enabled) in proxies.items() if enabled for line in proxy_lines(name, listen, upstream)]
    lines += shared_lines(proxies)
    for number, (proxy, _, _, chains, order, *_) in enumerate(rules, 1):
        if proxy not in proxies:
            lines.append(f"rule {number} never applies: no proxy {shown(proxy)}{near(proxy, proxies)}")
            continue
        told = coverage(rules, number, proxy)
        told += toxic_lines(chains, order)
        if not proxies[proxy][2]:
            told.append(f"is for proxy {shown(proxy)}, which is disabled")
        lines += [f"rule {number} {line}" for line in told]
    count = len(lines)
    if verbose:
        lines.append(f"{len(proxies)} proxies, {len(rules)} rules, {sum(len(rule[4]) for rule in rules)} toxics")
    return "".join(line + "\n" for line in lines), count
