"""The commands of `toxiproxy-cli` that make a setup."""
from typing import Callable, Dict, List, Tuple

from .setups import Entry, Setup

FLAGS = {
    "-l": "listen", "--listen": "listen", "-u": "upstream", "--upstream": "upstream",
    "-t": "type", "--type": "type", "-n": "toxicName", "--toxicName": "toxicName",
    "--tox": "toxicity", "--toxicity": "toxicity", "-a": "attribute", "--attribute": "attribute",
}
STREAM_FLAGS = {"-u": "upstream", "--upstream": "upstream", "-d": "downstream", "--downstream": "downstream"}
# Commands that change nothing.
SHOWING = ("list", "l", "ls", "inspect", "i", "ins", "help", "h", "--help", "--version")


def perform_command(words: List[str], place: str, setup: Setup) -> None:
    """Does to a setup what a command does. `words` stand behind the program's name."""
    if words[:1] in (["-h"], ["--host"]):
        words = words[2:]
    if not words or words[0] in SHOWING:
        return
    if any("$" in word or "`" in word for word in words):
        setup.miss(place, "a variable of the shell isn't known here")
    elif words[0] in ("create", "c"):
        _create(words[1:], place, setup)
    elif words[0] in ("toxic", "t") and words[1:2] and words[1] in TOXIC_COMMANDS:
        TOXIC_COMMANDS[words[1]](words[2:], place, setup)
    else:
        setup.miss(place, f"`{' '.join(words[:2])}` changes a proxy while it runs")


def _create(words: List[str], place: str, setup: Setup) -> None:
    found, rest = _flags(words)
    entry = {key: found[key][-1] for key in ("listen", "upstream") if key in found}
    setup.create({**entry, "name": rest[0] if len(rest) == 1 else None}, place, "create")


def _add(words: List[str], place: str, setup: Setup) -> None:
    proxy, toxic = _toxic_of(words)
    setup.add(proxy, {"stream": "downstream", **toxic}, place, "toxic add")


def _update(words: List[str], place: str, setup: Setup) -> None:
    proxy, toxic = _toxic_of(words)
    setup.update(proxy, toxic.pop("name", ""), toxic, place, "toxic update")


def _remove(words: List[str], place: str, setup: Setup) -> None:
    proxy, toxic = _toxic_of(words)
    setup.remove(proxy, toxic.get("name", ""), place, "toxic remove")


def _toxic_of(words: List[str]) -> Tuple[str, Entry]:
    """The proxy and the toxic that the words of a command name: type, name, attributes, toxicity and stream, as far as they are there."""
    streams = [STREAM_FLAGS[word] for word in words if word in STREAM_FLAGS]
    found, rest = _flags([word for word in words if word not in STREAM_FLAGS])
    pairs = [pair.partition("=") for pair in found.get("attribute", [])]
    toxic: Entry = {"attributes": {key: value for key, _, value in pairs}}
    for flag, key in (("type", "type"), ("toxicName", "name"), ("toxicity", "toxicity")):
        if flag in found:
            toxic[key] = found[flag][-1]
    if streams:
        toxic["stream"] = streams[-1]
    return (rest[0] if len(rest) == 1 else ""), toxic


TOXIC_COMMANDS: Dict[str, Callable[[List[str], str, Setup], None]] = {
    "add": _add, "a": _add, "update": _update, "u": _update, "remove": _remove, "r": _remove, "delete": _remove, "d": _remove,
}


def _flags(words: List[str]) -> Tuple[Dict[str, List[str]], List[str]]:
    """The values of flags by their long names, and the other words."""
    found: Dict[str, List[str]] = {}
    rest = []
    words = list(words)
    while words:
        word = words.pop(0)
        flag, joined, value = word.partition("=")
        if flag in FLAGS and joined:
            found.setdefault(FLAGS[flag], []).append(value)
        elif word in FLAGS and words:
            found.setdefault(FLAGS[word], []).append(words.pop(0))
        else:
            rest.append(word)
    return found, rest
