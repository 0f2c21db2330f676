"""`rerun` and `rerun_command`: the client again, under what was found."""
import json
from functools import partial
from pathlib import Path
from typing import Any, Callable, Dict, Iterable, List, Mapping, Optional, Sequence, Union

from ._search.presets import allowed_classes
from ._search.running import MakeJudge
from .base import StrPath
from .found import detail_of
from .outcomes import SETTLED_WITHIN, WITHIN, Allowed, Check, Client, Eventually, Startable, judge_of
from .persistent_client import PersistentClient, direct_request
from .shell_client import ShellClient, before_of, checks_by, direct_command, status_judge
from ._search.kept_runs import KeptRuns


def rerun(
    folder: StrPath,
    client: Union[Client, Startable],
    *,
    check: Optional[Check] = None,
    allowed: Union[Allowed, str] = OSError,
    within: float = WITHIN,
    before: Optional[Callable[[], object]] = None,
    eventually: Optional[Eventually] = None,
    settle: float = SETTLED_WITHIN,
    times: int = 1,
    upstreams: Optional[Mapping[str, str]] = None,
) -> None:
    """Runs a client without a fault, and then `times` times under the script and the seed of the folder of a `Found`.

    Its upstreams are those of the folder, or where `upstreams` names them. The rest is as for `find_fault`. Raises `AssertionError` where it isn't right.
    """
    __tracebackhide__ = True
    kept_runs = KeptRuns({**upstreams_of(folder), **(upstreams or {})}, client, within, _seed(folder), before)
    _require_right(kept_runs, partial(judge_of, check=check, allowed=allowed_classes(allowed), eventually=eventually, settle=settle), Path(folder), times)


def rerun_command(
    folder: StrPath,
    command: Sequence[str],
    *,
    allowed_statuses: Iterable[int] = (),
    before: Optional[str] = None,
    check: Optional[str] = None,
    within: float = WITHIN,
    times: int = 1,
    upstreams: Optional[Mapping[str, str]] = None,
    persistent: bool = False,
) -> None:
    """As `rerun`, for a command, whose outputs are ours. `before` and `check` are a shell's commands, as for `toxi-find`.

    With `persistent` it is one that stays for many runs. Each run here has a process of its own.
    """
    __tracebackhide__ = True
    client: Startable = PersistentClient(tuple(command), None) if persistent else ShellClient(tuple(command), None)
    kept_runs = KeptRuns({**upstreams_of(folder), **(upstreams or {})}, client, within, _seed(folder), before_of(before))
    looks = None if check is None else checks_by(check)
    direct = (direct_request if persistent else direct_command)(kept_runs.upstreams, command)
    # Each run within `fresh` ends its process.
    with client.fresh():
        _require_right(kept_runs, partial(status_judge, allowed_statuses=allowed_statuses, direct=direct, looks=looks), Path(folder), times)


def _require_right(kept_runs: KeptRuns, make_judge: MakeJudge, folder: Path, times: int) -> None:
    __tracebackhide__ = True
    unfaulted = kept_runs.run()
    unfaulted.discard()
    judge = make_judge([unfaulted.outcome])
    script = (folder / "script.toml").read_text(encoding="utf-8")
    refused = frozenset(proxy["name"] for proxy in _proxies(folder) if proxy.get("enabled") is False)
    for _ in range(times):
        kept = kept_runs.run(script, refused)
        kept.discard()
        verdict = judge.verdict(kept.outcome)
        if verdict.is_fault:
            raise AssertionError(f"{verdict} under {folder / 'script.toml'}\n{detail_of(kept.outcome, verdict, judge.right)}".rstrip("\n"))


def upstreams_of(folder: StrPath) -> Dict[str, str]:
    """The upstreams of a folder by the names of their proxies."""
    return {proxy["name"]: proxy["upstream"] for proxy in _proxies(folder)}


def _proxies(folder: StrPath) -> List[Dict[str, Any]]:
    found: List[Dict[str, Any]] = json.loads((Path(folder) / "proxies.json").read_text(encoding="utf-8"))
    return found


def _seed(folder: StrPath) -> int:
    return int((Path(folder) / "seed").read_text(encoding="utf-8"))
