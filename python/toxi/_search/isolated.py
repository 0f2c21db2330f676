"""A client of which each run has a process of its own, which is ended."""
import importlib
import json
import os
import pickle
import subprocess
import sys
import threading
from typing import Any, Union

from ..errors import ToxiError
from ..lines import Address
from ..outcomes import Addresses, StartedRun, Client, Startable, run_here
from ..process import tied_to_parent
from ..sources import source_of

START = f"import sys; from {__name__} import main; main(*sys.argv[1:])"


class Isolated(Startable):
    """A function of a module, given by itself or as `module:function`. What it returns or raises is pickled."""

    def __init__(self, client: Union[Client, str]) -> None:
        self.name = client if isinstance(client, str) else _name_of(client)
        self.function_of(self.name)

    @staticmethod
    def function_of(name: str) -> Client:
        """The function of `module:function`. Raises `ToxiError` where there is none."""
        module, mark, function = name.partition(":")
        try:
            found: Client = getattr(importlib.import_module(module), function) if mark else _missing(name)
        except (ImportError, AttributeError) as error:
            raise ToxiError(f"no client {name!r}: {error}") from None
        return found

    def start(self, addresses: Addresses) -> StartedRun:
        """Starts a process that runs it."""
        return _ProcessRun(self.name, addresses)


def _missing(name: str) -> Any:
    raise ToxiError(f"{name!r} isn't module:function")


def _name_of(client: Client) -> str:
    source = source_of(client)
    if source is None:
        raise ToxiError(f"{client!r} isn't a function of a module, so no other process finds it")
    return f"{source.module}:{source.name}"


class _ProcessRun(StartedRun):
    """A process that is waited for by a thread. It imports from where this one does, and pickles its answer to a pipe."""

    def __init__(self, name: str, addresses: Addresses) -> None:
        super().__init__()
        ours, theirs = os.pipe()
        told = {proxy: tuple(address) for proxy, address in addresses.items()}
        words = [sys.executable, "-c", START, name, json.dumps(told), str(theirs)]
        path = os.pathsep.join(filter(None, sys.path))
        self._process = subprocess.Popen(
            [*tied_to_parent(), *words], pass_fds=[theirs], stdin=subprocess.DEVNULL, env={**os.environ, "PYTHONPATH": path}, start_new_session=True
        )
        os.close(theirs)
        threading.Thread(target=self._wait, args=(ours,), name="toxi isolated client", daemon=True).start()

    def _wait(self, ours: int) -> None:
        with open(ours, "rb") as pipe:
            text = pipe.read()
        status = self._process.wait()
        answered, value = pickle.loads(text) if text else (False, RuntimeError(f"the client's process ended with status {status}"))
        self.settle(*((value, None) if answered else (None, value)))

    def end(self) -> None:
        """Kills it."""
        self._process.kill()


def main(name: str, addresses: str, pipe: str) -> None:
    """Runs the client in this process, and pickles whether it answered, and its answer or exception."""
    told: "tuple[bool, Any]"
    try:
        told = True, run_here(Isolated.function_of(name), {proxy: Address(*address) for proxy, address in json.loads(addresses).items()})
    except BaseException as error:
        told = False, error
    with open(int(pipe), "wb") as file:
        file.write(pickle.dumps(told))
