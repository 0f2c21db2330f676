"""Proxies, and the populate file that they are."""
import json
from dataclasses import asdict, dataclass
from typing import Dict, Iterable, List, Mapping, Union

from .lines import Address, printed


@dataclass(frozen=True)
class Proxy:
    """A proxy before `upstream`. By default the system chooses its port."""

    name: str
    upstream: str
    listen: str = "127.0.0.1:0"
    enabled: bool = True


Proxies = Union[str, Mapping[str, str], Iterable[Proxy]]


def populate_text(proxies: Proxies) -> str:
    """The populate file of proxies, of a mapping from names to upstreams, or of a file's own text. Raises `TypeError` for anything else."""
    if not isinstance(proxies, (str, Iterable)):
        raise TypeError(f"proxies are a mapping from names to upstreams, a list of Proxy, or the text of a populate file, not {proxies!r}")
    if isinstance(proxies, str):
        return proxies
    if isinstance(proxies, Mapping):
        proxies = [Proxy(name, upstream) for name, upstream in proxies.items()]
    kept = list(proxies)
    for proxy in kept:
        if not isinstance(proxy, Proxy):
            raise TypeError(f"{proxy!r} is no Proxy: Proxy('shop', '127.0.0.1:8080')")
    return json.dumps([asdict(proxy) for proxy in kept], ensure_ascii=False, indent=1) + "\n"


def enabled_by_name(populate: str) -> Dict[str, bool]:
    """Whether each proxy is enabled, in the order of the file. Empty where the program will refuse the file."""
    try:
        return {proxy["name"]: proxy.get("enabled") is not False for proxy in json.loads(populate)}
    except (ValueError, TypeError, KeyError, AttributeError):
        return {}


def enabled_names(populate: str) -> List[str]:
    """The names of the enabled proxies in the order of the file. Empty where the program will refuse the file."""
    return [name for name, enabled in enabled_by_name(populate).items() if enabled]


def listening_at(populate: str, addresses: Mapping[str, Address]) -> str:
    """A populate file that was served, with the addresses that its proxies had, by their printed names."""
    if not addresses:
        return populate
    proxies = json.loads(populate)
    for proxy in proxies:
        address = addresses.get(printed(proxy["name"]))
        if address is not None:
            proxy["listen"] = str(address)
    return json.dumps(proxies, ensure_ascii=False, indent=1) + "\n"
