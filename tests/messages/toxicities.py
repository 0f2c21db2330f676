"""What a toxicity is in percent, told where a person asks."""
import os

from explanations import said
from warnings_at_start import served

CONFIG = '[{"name":"shop","listen":"localhost:0","upstream":"localhost:1"},{"name":"mail","listen":"localhost:0","upstream":"localhost:1"}]'
SCRIPT = """
[[rule]]
proxy = "shop"
first = 1
last = 2
toxic = [
    { name = "rare", type = "latency", stream = "upstream", toxicity = 30 },
    { name = "always", type = "latency" },
    { name = "never", type = "slow_close", toxicity = 0 },
]

[[rule]]
proxy = "mail"
first = 1
toxic = [{ name = "odd", type = "latency", toxicity = 999 }]

[[rule]]
proxy = "shop"
first = 5
toxic = [{ type = "latency", toxicity = 500 }]
"""
FILES = ["--config", "proxies.json", "--script", "script.toml"]
RARE = "toxi: rule 1: rare has toxicity 30 (3.0 %)\ntoxi: rule 1: never has toxicity 0 (0.0 %)\n"
MAIL = "toxi: rule 2: odd has toxicity 999 (99.9 %)\n"
LATER = "toxi: rule 3: latency_downstream has toxicity 500 (50.0 %)\n"


def write(folder):
    for name, text in (("proxies.json", CONFIG), ("script.toml", SCRIPT)):
        with open(os.path.join(folder, name), "w", encoding="utf-8") as file:
            file.write(text)


def pick_tells(program, folder):
    write(folder)
    for conn, options, told in ((1, ["--verbose"], RARE), (3, ["--verbose"], ""), (5, ["--verbose"], LATER), (1, ["--explain"], RARE), (1, [], "")):
        pick = ["pick", *FILES, "--proxy", "shop", "--conn", str(conn), "--stream", "downstream", "--seed", "1", *options]
        assert said(program, pick, None, folder) == told, (conn, options)


def forecast_tells(program, folder):
    write(folder)
    for proxy, links, asked, told in (("shop", 4, "1", RARE), ("shop", 5, "1", RARE + LATER), ("mail", 1, "1", MAIL), ("shop", 4, None, "")):
        forecast = ["forecast", *FILES, "--proxy", proxy, "--links", str(links), "--seed", "1"]
        assert said(program, forecast, asked, folder) == told, (proxy, links, asked)


def serve_tells(program, folder):
    write(folder)
    told = (RARE + MAIL + LATER).splitlines()
    _, errors = served(program, folder, "--verbose", "--quiet")
    assert errors == told, errors
    _, errors = served(program, folder, "--quiet")
    assert errors == [], errors


def serve_tells_twenty(program, folder):
    write(folder)
    with open(os.path.join(folder, "script.toml"), "w", encoding="utf-8") as file:
        for rule in range(1, 3001):
            file.write(f'[[rule]]\nproxy = "shop"\nfirst = {rule}\nlast = {rule}\ntoxic = [{{ type = "latency", toxicity = 500 }}]\n')
    _, errors = served(program, folder, "--verbose", "--quiet")
    assert len(errors) == 20 and errors[-1] == "toxi: rule 20: latency_downstream has toxicity 500 (50.0 %)", errors


CASES = [pick_tells, forecast_tells, serve_tells, serve_tells_twenty]
