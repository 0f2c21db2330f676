"""Calls of Toxiproxy's HTTP interface by curl and HTTPie that make a setup."""
import argparse
import json
import re
from dataclasses import dataclass
from typing import Any, Dict, List, Optional
from urllib.parse import unquote

from .setups import Setup
from .shell import HTTPIE, Command

# The path of a call. The host before it may be a variable.
PATH = re.compile(r"/((?:proxies|populate|reset|version|metrics)(?:/[^?#]*)?)(?:[?#].*)?$")
READING = ("GET", "HEAD", "OPTIONS")
# What changes something in the words of wget.
WGET_CHANGE = re.compile(r"--(method|post-data|post-file|body-data|body-file)\b")
# curl's options by whether a value follows. Unknown long ones are taken for flags.
CURL_DATA = ("-d", "--data", "--data-ascii", "--data-binary", "--json")
CURL_VALUES = "-H --header -o --output -u --user -w --write-out -m --max-time --connect-timeout --retry --retry-delay --retry-max-time -A -e -b -c -x -T -F".split()
CURL_FLAGS = "-0 -1 -2 -3 -4 -6 -a -B -f -g -i -j -J -k -l -L -M -n -N -O -p -q -R -s -S -v -Z -#".split()
HTTPIE_VALUES = "-a --auth -A --auth-type -o --output -p --print -s --style --session --session-read-only --timeout --verify --cert --proxy --pretty".split()
HTTPIE_FLAGS = "-j --json -f --form -b --body -h --headers -v --verbose -q -I --ignore-stdin --check-status -F --follow -S".split()
# A field of HTTPie: its name, what kind it is, and its value.
ITEM = re.compile(r"([^:=@]+)(:=@|:=|==|=@|=|@|:)(.*)", re.S)
NESTED = re.compile(r"([^\[\]]+)((?:\[[^\[\]]+\])*)")


class NotKnown(Exception):
    """What a call does that can't be read here."""


@dataclass(frozen=True)
class Call:
    """A call of the interface: its method, its path without the first `/`, and its body, None without one."""

    method: str
    path: str
    body: Optional[str]


class _Words(argparse.ArgumentParser):
    """Reads the words of another program."""

    def __init__(self, values: List[str], flags: List[str]) -> None:
        super().__init__(add_help=False, allow_abbrev=False)
        self.add_argument(*values, dest="ignored")
        for flag in flags:
            self.add_argument(flag, action="store_true", dest="flag")

    def error(self, message: str) -> Any:
        raise NotKnown("its options can't be read")


def perform_call(command: Command, place: str, setup: Setup) -> bool:
    """Does to a setup what a call of the interface does. Whether the command is one. What can't be read is named."""
    try:
        call = call_of(command)
        if call is not None and call.method not in READING:
            _perform(call, place, setup)
    except NotKnown as error:
        setup.miss(place, str(error))
        return True
    return call is not None


def call_of(command: Command) -> Optional[Call]:
    """The call that a command makes. None for what isn't one. Raises `NotKnown` for one that can't be read."""
    found = command.behind("curl", "wget", *HTTPIE)
    if found is None or not any(PATH.search(word) for word in found[1]):
        return None
    program, words = found
    if program == "wget":
        if WGET_CHANGE.search(" ".join(words)):
            raise NotKnown("a call by wget isn't read")
        return None
    call = _curl_call(words, command) if program == "curl" else _httpie_call(words, command)
    if call is not None and call.method not in READING and any(sign in f"{call.path}{call.body}" for sign in "$`"):
        raise NotKnown("a variable of the shell isn't known here")
    return call


def _path_of(url: str) -> Optional[str]:
    found = PATH.search(url)
    return unquote(found[1].rstrip("/")) if found else None


def _curl_call(words: List[str], command: Command) -> Optional[Call]:
    parser = _Words(CURL_VALUES, CURL_FLAGS)
    parser.add_argument("-X", "--request")
    parser.add_argument(*CURL_DATA, action="append", dest="data")
    parser.add_argument("--data-raw", action="append", dest="raw")
    parser.add_argument("--url")
    parser.add_argument("-G", "--get", action="store_true")
    parser.add_argument("-I", "--head", action="store_true")
    given, rest = parser.parse_known_args(words)
    urls = [word for word in [*rest, given.url or ""] if not word.startswith("-")]
    path = next((path for path in map(_path_of, urls) if path), None)
    if path is None:
        return None
    parts = [_curl_data(part, command) for part in given.data or []] + (given.raw or [])
    body = "&".join(parts) if parts else None
    method = given.request or ("GET" if body is None or given.get or given.head else "POST")
    return Call(method.upper(), path, body)


def _curl_data(part: str, command: Command) -> str:
    """What `-d` means: `@` stands before a file, and `@-` is the standard input."""
    if not part.startswith("@"):
        return part
    if part in ("@-", "@/dev/stdin") and command.file is None and command.given is not None:
        return command.given
    raise NotKnown(f"the body is in {command.file or part[1:]}, which isn't read")


def _httpie_call(words: List[str], command: Command) -> Optional[Call]:
    parser = _Words(HTTPIE_VALUES, HTTPIE_FLAGS)
    parser.add_argument("--raw")
    given, rest = parser.parse_known_args(words)
    plain = [word for word in rest if not word.startswith("-")]
    method = plain.pop(0).upper() if len(plain) > 1 and plain[0].isalpha() else None
    path = _path_of(plain[0]) if plain else None
    if path is None:
        return None
    fields = _fields(plain[1:])
    body = json.dumps(fields) if fields else given.raw if given.raw is not None else command.given
    if body is None and command.file is not None:
        raise NotKnown(f"the body is in {command.file}, which isn't read")
    return Call(method or ("GET" if body is None else "POST"), path, body)


def _fields(items: List[str]) -> Dict[str, Any]:
    """The JSON object that HTTPie makes of its items. Headers and queries aren't part of it."""
    fields: Dict[str, Any] = {}
    for item in items:
        found = ITEM.fullmatch(item)
        if found is None or "@" in found[2]:
            raise NotKnown(f"`{item}` can't be read")
        if found[2] in ("=", ":="):
            _put(fields, found[1], found[3] if found[2] == "=" else _json(found[3]))
    return fields


def _put(fields: Dict[str, Any], name: str, value: object) -> None:
    """Sets a field, or the one in another: `attributes[latency]`."""
    found = NESTED.fullmatch(name)
    if found is None:
        raise NotKnown(f"`{name}` can't be read")
    *outer, last = [found[1], *re.findall(r"\[([^\[\]]+)\]", found[2])]
    for key in outer:
        fields = fields.setdefault(key, {})
        if not isinstance(fields, dict):
            raise NotKnown(f"`{name}` can't be read")
    fields[last] = value


def _json(text: str) -> Any:
    try:
        return json.loads(text)
    except ValueError:
        raise NotKnown(f"`{text}` isn't JSON") from None


def _perform(call: Call, place: str, setup: Setup) -> None:
    named = f"{call.method} /{call.path}"
    parts = call.path.split("/")
    creates, adds = parts in (["proxies"], ["populate"]), len(parts) == 3 and parts[::2] == ["proxies", "toxics"]
    if len(parts) == 4 and parts[:3:2] == ["proxies", "toxics"] and call.method in ("POST", "PATCH", "DELETE"):
        _change_toxic(call, parts[1], parts[3], place, setup)
        return
    if call.method != "POST" or not (creates or adds):
        setup.miss(place, f"`{named}` changes a proxy while it runs")
        return
    body = _json(call.body or "")
    entries = body if isinstance(body, list) and parts == ["populate"] else [body]
    if not all(isinstance(entry, dict) for entry in entries):
        raise NotKnown(f"`{named}` has another body than an object")
    for entry in entries:
        if creates:
            setup.create(entry, place, named)
        else:
            setup.add(parts[1], entry, place, named)


def _change_toxic(call: Call, proxy: str, toxic: str, place: str, setup: Setup) -> None:
    named = f"{call.method} /{call.path}"
    if call.method == "DELETE":
        setup.remove(proxy, toxic, place, named)
        return
    change = _json(call.body or "")
    if not isinstance(change, dict):
        raise NotKnown(f"`{named}` has another body than an object")
    setup.update(proxy, toxic, change, place, named)
