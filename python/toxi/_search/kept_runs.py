"""A client's run behind proxies of its own, whose files and logs are kept."""
import tempfile
import time
from dataclasses import dataclass, replace
from pathlib import Path
from typing import Callable, FrozenSet, Iterable, List, Mapping, Optional, Union

from ..base import StrPath
from ..conversations import streams_of
from ..lines import Link
from ..outcomes import Client, Outcome, Startable, run_client
from ..ports import refusing
from ..proxies import Proxy
from ..rules import Rule
from ..runs import Run
from ..served import Toxi
from .client_run import ClientRun
from .holding import held_seconds
from .serving import Unchecked

Rules = Union[str, Iterable[Rule]]


@dataclass(frozen=True)
class KeptRun:
    """A run of a client: its outcome, and the proxies, which have ended. `seconds` is its time with their start and end."""

    outcome: Outcome
    served: Toxi
    seconds: float
    directory: "tempfile.TemporaryDirectory[str]"

    @property
    def links(self) -> List[Link]:
        """The connections that it made."""
        return self.served.links()

    @property
    def serve_run(self) -> Run:
        """The run of `serve`. Its files and logs stand until the kept run is discarded."""
        return self.served.runs[-1]

    def discard(self) -> None:
        """Removes its files."""
        self.directory.cleanup()


@dataclass(frozen=True)
class KeptRuns:
    """Runs a client as often as is asked. `before` is called before each run; `within` is the client's limit in seconds, beside what its links hold back."""

    upstreams: Mapping[str, str]
    client: Union[Client, Startable]
    within: float
    seed: int
    before: Optional[Callable[[], object]] = None
    program: Optional[StrPath] = None
    workers: Optional[int] = None

    def run(self, rules: Rules = (), refused: FrozenSet[str] = frozenset()) -> KeptRun:
        """Runs it once under a script, with proxies that refuse connects. Raises `ToxiError` where `serve` can't be started."""
        __tracebackhide__ = True
        if self.before is not None:
            self.before()
        begun, rules = time.monotonic(), rules if isinstance(rules, str) else tuple(rules)
        directory = tempfile.TemporaryDirectory(prefix="toxi-")
        try:
            served = self._served(rules, refused, Path(directory.name))
            with served, refusing(refused) as refusals:
                addresses = {**{name: served.address(name) for name in self.upstreams if name not in refused}, **refusals}
                outcome = run_client(self.client, addresses, self.within, served.stop, lambda now: held_seconds(served.logs(), now))
        except BaseException:
            directory.cleanup()
            raise
        told = ClientRun(rules, outcome.seconds, lambda: streams_of(served.links(), served.logs()))
        return KeptRun(replace(outcome, run=told), served, time.monotonic() - begun, directory)

    def _served(self, rules: Rules, refused: FrozenSet[str], directory: Path) -> Unchecked:
        proxies = [Proxy(name, upstream, enabled=name not in refused) for name, upstream in self.upstreams.items()]
        return Unchecked(proxies, rules, seed=self.seed, program=self.program, workers=self.workers, directory=directory, log=directory / "logs")
