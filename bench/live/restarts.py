"""One instance is ended and started again under load: what each one's links met, by its lines and logs, beside the same without that."""
import collections
import json
import os
import re
import subprocess
import time

import instances
import proxies

ENDED = 2
# How many times as long as a rate it is measured. An instance is ended after two of them, and is away for one.
LONG = 6
NAMES = ["slow", "cut", "flake"]
SCRIPT = """\
[[rule]]
proxy = "bench"
first = 1

[[rule.toxic]]
name = "slow"
type = "latency"
toxicity = 500
attributes = { latency = 40, jitter = 10 }

[[rule.toxic]]
name = "cut"
type = "limit_data"
toxicity = 100
attributes = { bytes = 500 }

[[rule.toxic]]
name = "flake"
type = "reset_peer"
toxicity = 100
attributes = { timeout = 20 }
"""


def load(port, seconds):
    """A client that makes a link for each request."""
    command = ["wrk", "-t2", f"-c{instances.LINKS}", f"-d{seconds}s", "-H", "Connection: close", f"http://127.0.0.1:{port}/small"]
    return subprocess.Popen(command, stdout=subprocess.PIPE, text=True)


def run(folder, arguments, restarted):
    """The instances after a load, and how many requests were answered."""
    fleet = instances.make(folder, arguments.seed)
    for instance in fleet:
        instance.start(SCRIPT, logged=True)
    balancer = proxies.balancer(folder, "balancer", [each.address for each in fleet])
    client = load(balancer.port, arguments.seconds * LONG)
    if restarted:
        time.sleep(arguments.seconds * 2)
        fleet[ENDED - 1].end()
        time.sleep(arguments.seconds)
        fleet[ENDED - 1].start(SCRIPT, logged=True)
    told = client.communicate()[0]
    # What the client has left behind comes through.
    time.sleep(1)
    for process in (balancer, *fleet):
        process.stop()
    return fleet, re.search(r"\d+ requests in", told)[0].split()[0]


def met(life):
    """The toxics that each link met on its way down, by its number."""
    found = {}
    with open(life.lines, encoding="utf-8") as lines:
        for words in map(str.split, lines):
            if words[0] == "open" and words[3] == "downstream":
                found[int(words[2])] = words[5:]
    return found


def foretold(instance, links):
    """The same by the files and the seed."""
    config, script = (os.path.join(instance.folder, f"life1.{kind}") for kind in ("json", "toml"))
    command = ["forecast", "--config", config, "--script", script, "--proxy", "bench", "--seed", str(instance.seed), "--links", str(links), "--stream", "downstream", "--json"]
    told = subprocess.run([proxies.TOXI, *command], check=True, stdout=subprocess.PIPE, text=True).stdout
    lines = [json.loads(line) for line in told.splitlines()]
    return {line["link"]: [NAMES[place] for place in line["applied"]] for line in lines if line["event"] == "forecast"}


def verdicts(life):
    """How many logs are faithful, and how many of the others end how."""
    names = "\n".join(entry.path for entry in os.scandir(life.logs))
    told = subprocess.run([proxies.TOXI, "replay", "--json", "-"], input=names, stdout=subprocess.PIPE, text=True, check=False).stdout
    found = collections.Counter()
    for log in map(json.loads, told.splitlines()):
        found[log["verdict"] if log["verdict"] != "unfinished" else ending(log["file"])] += 1
    return found


def ending(log):
    """The last line of a log that is unfinished, without its number."""
    with open(log, encoding="utf-8") as lines:
        return lines.read().splitlines()[-1].rsplit(" ", 1)[0]


def judge(instance):
    """What is wrong with the lives of an instance. Prints each. Only one that ends under load has links that are broken off."""
    wrong = []
    for number, life in enumerate(instance.lives, 1):
        links, logs = met(life), verdicts(life)
        plan = foretold(instance, max(links))
        name = f"instance {instance.number}, seed {instance.seed}, life {number}"
        print(f"  {name}: {len(links):,} links; logs: {', '.join(f'{count:,} {what}' for what, count in logs.most_common())}", flush=True)
        if any(plan[link] != toxics for link, toxics in links.items()):
            wrong.append(f"{name}: a link met other toxics than `forecast` prints")
        if logs["unfaithful"] or life is instance.lives[-1] and logs["faithful"] != logs.total():
            wrong.append(f"{name}: not every log is faithful")
    return wrong


def unchanged(steady, restarted):
    """What differs between the links that both runs of an instance had."""
    one, other = met(steady.lives[0]), met(restarted.lives[0])
    both = one.keys() & other.keys()
    print(f"  instance {steady.number}: {len(both):,} links of both runs met the same toxics", flush=True)
    return [f"instance {steady.number}: link {link} met {one[link]}, and then {other[link]}" for link in both if one[link] != other[link]]


def measure(arguments, folder):
    wrong, fleets = [], []
    for what, restarted in (("no instance is ended", False), (f"instance {ENDED} is ended and started again", True)):
        print(f" a link for each request, {instances.LINKS} at once: {what}", flush=True)
        inner = os.path.join(folder, f"restarts{restarted}")
        os.mkdir(inner)
        fleet, requests = run(inner, arguments, restarted)
        print(f"  {requests} requests in {arguments.seconds * LONG} s", flush=True)
        fleets.append(fleet)
        wrong += [each for instance in fleet for each in judge(instance)]
    wrong += [each for pair in zip(*fleets) for each in unchanged(*pair)]
    if wrong:
        raise SystemExit("\n".join(wrong))
