"""Classes of exceptions by the names of what a client speaks, for `allowed`."""
import importlib
import sys
from typing import Dict, List, Tuple, Type, Union

from ..outcomes import Allowed

# Of each module that is imported already.
PRESETS: Dict[str, Tuple[str, ...]] = {
    "http": (
        "http.client.HTTPException",
        "requests.RequestException",
        "urllib3.exceptions.HTTPError",
        "httpx.TransportError",
        "aiohttp.ClientError",
        "asyncio.TimeoutError",
    ),
    "redis": ("redis.ConnectionError", "redis.TimeoutError", "asyncio.TimeoutError"),
    "postgres": (
        "psycopg2.OperationalError",
        "psycopg2.InterfaceError",
        "psycopg.OperationalError",
        "psycopg.InterfaceError",
        "asyncpg.PostgresConnectionError",
        "asyncpg.InterfaceError",
        "asyncio.TimeoutError",
    ),
}
ANY = "any"


def allowed_classes(allowed: Union[Allowed, str]) -> Allowed:
    """The classes of a preset, with `OSError`, or those that are given. A library that isn't imported has raised nothing. Raises `ValueError` for no preset."""
    if not isinstance(allowed, str):
        return allowed
    if allowed == ANY:
        return Exception
    if allowed not in PRESETS:
        raise ValueError(f"no preset {allowed!r} of `allowed`; there are {', '.join([*PRESETS, ANY])}")
    found: List[Type[BaseException]] = [OSError]
    for name in PRESETS[allowed]:
        module, _, kind = name.rpartition(".")
        if module in sys.modules or module in ("http.client", "asyncio"):
            found.append(getattr(importlib.import_module(module), kind))
    return tuple(dict.fromkeys(found))
