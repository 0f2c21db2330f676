"""The folder of what a search has found: the files of its proxies, its logs, and what runs it again."""
import math
import os
import shlex
import sys
import tempfile
from dataclasses import dataclass
from pathlib import Path
from typing import List, Optional, Tuple

from ._search.failures import allowed_hint
from ._search.searching import Smallest
from .artifacts import keep_run
from .base import STREAMS
from .client_source import ClientSource
from .errors import ToxiError
from .found import Found, Met, detail_of
from .outcomes import Judge
from .program import found_program
from .proxies import Proxy, populate_text
from .runs import Position
from .served import page_of
from ._search.kept_runs import KeptRun, KeptRuns

AGAIN = """#!/bin/sh
# Runs the client again under script.toml and seed {seed}, and fails until it is mended. Usage: sh again.sh [NAME=HOST:PORT ..], where services are now.
folder="$(cd "$(dirname "$0")" && pwd)" && cd {directory} && TOXI={program} PYTHONPATH={path}${{PYTHONPATH:+:$PYTHONPATH}} exec {python} "$folder/test_found.py" "$@"
"""
# A test of a fault that comes now and then misses it less often than this.
MISSED = 0.001
MOST_TIMES = 50
# A fault that comes each time is run once more for its logs, and another one until it comes, at most so often.
MOST_KEPT = 10


@dataclass(frozen=True)
class FoundFolder:
    """Writes what is left of a failure into a folder, or into a new one."""

    folder: Optional[Path]
    smallest: Smallest
    source: ClientSource
    kept_runs: KeptRuns
    judge: Judge

    def found(self, runs: int, seconds: float) -> Found:
        """Runs it once more for its logs, and writes the files. Returns what stands in them."""
        smallest, failure = self.smallest, self.smallest.failure
        folder = Path(tempfile.mkdtemp(prefix="toxi-found-")) if self.folder is None else self.folder.absolute()
        folder.mkdir(parents=True, exist_ok=True)
        kept = self._kept_run() if failure.outcome.returned else None
        try:
            self._keep(kept, folder)
            met = () if kept is None else _connections(kept)
        finally:
            if kept is not None:
                kept.discard()
        found = Found(
            script=failure.case.script,
            kind=str(failure.verdict),
            detail=detail_of(failure.outcome, failure.verdict, self.judge.right),
            failed=smallest.failed,
            repeated=smallest.repeated,
            connections=met,
            seed=self.kept_runs.seed,
            runs=runs,
            seconds=seconds,
            folder=folder,
            where=failure.where,
            hint=allowed_hint(failure),
            refused=tuple(sorted(failure.case.refused)),
            places=tuple(failure.case.places),
        )
        self._write_files(found)
        return found

    def _kept_run(self) -> KeptRun:
        """A run with its logs: one that fails, if it comes soon enough."""
        case, verdict = self.smallest.failure.case, self.smallest.failure.verdict
        kept = self.kept_runs.run(case.rules, case.refused)
        for _ in range(MOST_KEPT - 1):
            if self.judge.verdict(kept.outcome) == verdict or not kept.outcome.returned:
                break
            kept.discard()
            kept = self.kept_runs.run(case.rules, case.refused)
        return kept

    def _keep(self, kept: Optional[KeptRun], folder: Path) -> None:
        if kept is None:
            failure = self.smallest.failure
            proxies = [Proxy(name, upstream, enabled=name not in failure.case.refused) for name, upstream in self.kept_runs.upstreams.items()]
            (folder / "proxies.json").write_text(populate_text(proxies), encoding="utf-8")
            (folder / "script.toml").write_text(failure.case.script, encoding="utf-8")
            return
        try:
            page = page_of(kept.serve_run)
        except ToxiError:
            # No connection was made, or its log can't be judged.
            page = kept.serve_run.page_path()
        keep_run(kept.serve_run, folder, Position(), page)

    def _write_files(self, found: Found) -> None:
        about = f"{found.kind} {found.times} under script.toml. This fails until the client is mended."
        times = _times(found.failed, found.repeated)
        program = found_program() if self.kept_runs.program is None else os.fspath(self.kept_runs.program)
        path = os.pathsep.join([str(Path(__file__).absolute().parent.parent), *self.source.folders])
        quoted = {"directory": shlex.quote(os.getcwd()), "program": shlex.quote(os.path.abspath(program)), "path": shlex.quote(path)}
        files = {
            "seed": f"{found.seed}\n",
            "test_found.py": self.source.test_text(about, self.kept_runs.within, times),
            "again.sh": AGAIN.format(seed=found.seed, python=shlex.quote(sys.executable), **quoted),
        }
        for name, text in files.items():
            (found.folder / name).write_text(text, encoding="utf-8")


def _connections(kept: KeptRun) -> Tuple[Met, ...]:
    served = kept.served
    met: List[Met] = []
    for link in sorted(served.links(), key=lambda link: (link.proxy, link.number)):
        toxics = [toxic for stream in STREAMS for toxic in served.pick(link.proxy, link.number, stream) if toxic.applied]
        met.append(Met(link, tuple(toxics)))
    return tuple(met)


def _times(failed: int, repeated: int) -> int:
    """How often a test runs, so that it seldom misses what came in so many of the runs, at least in one."""
    if failed == repeated:
        return 1
    return min(MOST_TIMES, math.ceil(math.log(MISSED) / math.log(1 - failed / repeated)))
