"""What a setup of Toxiproxy has: its proxies with their toxics, and what has no counterpart here."""
import re
from dataclasses import dataclass, field
from typing import Any, Dict, List, Optional

# A proxy or a toxic as Toxiproxy's JSON has it.
Entry = Dict[str, Any]
# What an entry of a toxic keeps of its adding: the proxy's age, and the count of others' commands. No attribute has such a name.
AGE = "_age"
OTHERS = "_others"
# A time that `sleep` takes, and the milliseconds of its units.
SLEEP = re.compile(r"(\d{1,9}(?:\.\d+)?)([smh]?)")
UNITS = {"": 1_000, "s": 1_000, "m": 60_000, "h": 3_600_000}


class Unreadable(Exception):
    """A file that is no setup of Toxiproxy."""


@dataclass
class Setup:
    """The proxies so far by their names, each with its toxics, and what has no counterpart, with its place.

    `slept` is how many milliseconds the scripts have slept, and `created` the same when each proxy was created. `notes` are sentences for
    the head of the script that is written.
    """

    proxies: Dict[str, Entry] = field(default_factory=dict)
    missing: List[str] = field(default_factory=list)
    notes: List[str] = field(default_factory=list)
    slept: int = 0
    created: Dict[str, int] = field(default_factory=dict)
    # The input that is read, if there are several.
    source: str = ""
    # How many commands of others were run so far.
    others: int = 0

    def place(self, line: int) -> str:
        """A line of the input that is read."""
        return f"{self.source}line {line}"

    def miss(self, place: str, what: str) -> None:
        """Notes what has no counterpart."""
        self.missing.append(f"{place}: {what}")

    def other_command(self) -> None:
        """A command was run that is neither the client's nor an assignment. What was set up before it may have been used."""
        self.others += 1

    def create(self, entry: Entry, place: str, call: str) -> None:
        """Adds a proxy without toxics. One of the same name is replaced."""
        if not all(isinstance(entry.get(key), str) and entry[key] for key in ("name", "upstream")):
            self.miss(place, f"`{call}` without a name or an upstream")
            return
        self.proxies[entry["name"]] = {**entry, "toxics": []}
        self.created[entry["name"]] = self.slept

    def add(self, proxy: str, toxic: Entry, place: str, call: str) -> None:
        """Adds a toxic to a proxy. Its entry keeps how old the proxy is then, in milliseconds, and how many commands of others were run."""
        if not isinstance(toxic.get("type"), str):
            self.miss(place, f"`{call}` without a type")
        elif self._has_proxy(proxy, place, call):
            self.proxies[proxy]["toxics"].append({**toxic, AGE: self.slept - self.created.get(proxy, 0), OTHERS: self.others})

    def _has_proxy(self, proxy: str, place: str, call: str) -> bool:
        if proxy in self.proxies:
            return True
        self.miss(place, f"`{call}` for the proxy `{proxy}`, which nothing before it creates: name the populate file too, before this one")
        return False

    def remove(self, proxy: str, name: str, place: str, call: str) -> None:
        """Removes a toxic of a proxy, if nothing can have met it."""
        toxic = self._unmet(proxy, name, place, call)
        if toxic is not None:
            self.proxies[proxy]["toxics"].remove(toxic)

    def update(self, proxy: str, name: str, change: Entry, place: str, call: str) -> None:
        """Changes the attributes and the toxicity of a toxic, if nothing can have met it before."""
        toxic = self._unmet(proxy, name, place, call)
        if toxic is not None:
            toxic["attributes"] = {**(toxic.get("attributes") or {}), **(change.get("attributes") or {})}
            if "toxicity" in change:
                toxic["toxicity"] = change["toxicity"]

    def _unmet(self, proxy: str, name: str, place: str, call: str) -> Optional[Entry]:
        """The toxic of this name, where no command of others was run since it was added. Else that is noted."""
        if not self._has_proxy(proxy, place, call):
            return None
        named: List[Entry] = [toxic for toxic in self.proxies[proxy]["toxics"] if name_of(toxic) == name]
        if not named:
            self.miss(place, f"`{call}` for the toxic `{name}`, which the proxy `{proxy}` doesn't have")
            return None
        if named[-1].get(OTHERS) == self.others:
            return named[-1]
        self.miss(place, f"`{call}` changes a proxy while it runs")
        self.notes.append(f"{place} has `{call}` of the toxic {name} of the proxy {proxy}, behind other commands. It is here as it was before.")
        return None

    def sleep(self, words: List[str]) -> None:
        """Adds the times of a `sleep`. One that isn't a plain number counts as none."""
        for found in filter(None, map(SLEEP.fullmatch, words)):
            self.slept += round(float(found[1]) * UNITS[found[2]])


def name_of(toxic: Entry) -> str:
    """The name of a toxic, which is that of its type and stream where none is given."""
    return toxic.get("name") or f"{toxic.get('type')}_{(toxic.get('stream') or 'downstream').lower()}"


def read_document(document: object, setup: Setup) -> None:
    """What `GET /proxies` answers is an object of proxies, a populate file an array of them."""
    entries = list(document.values()) if isinstance(document, dict) else document
    if not isinstance(entries, list) or not all(isinstance(entry, dict) and "name" in entry for entry in entries):
        raise Unreadable("it has no proxies")
    for entry in entries:
        setup.proxies[entry["name"]] = {**entry, "toxics": list(entry.get("toxics") or [])}
        setup.created[entry["name"]] = setup.slept
