"""Starts `toxi serve`, a TCP fault proxy, in front of the services of a test.

    with Toxi({"shop": "127.0.0.1:8080"}, [Rule("shop", [Latency(latency=100)])], seed=7) as toxi:
        client = connect(toxi.address("shop"))

The manual of toxics and faults is docs/PROFILE.md, that of rules docs/SCRIPTS.md.
"""
__version__ = "0.8.0"

from ._search.client_run import ClientRun, RunLink
from ._search.memory import Remembered
from ._search.result import Flaky, SearchResult, Tried
from ._search.search import Search
from ._search.searching import Progress
from .async_served import AsyncToxi
from .errors import ToxiEnded, ToxiError, ToxiFault, ToxiWarning
from .factory import ToxiFactory
from .finding import find_fault
from .found import Found, Met
from .lines import Address, Link, Total
from .picks import PickedToxic
from .proxies import Proxy
from .rerunning import rerun, rerun_command
from .rules import Rule, script_text
from .served import Toxi
from .sweep_rows import SweepRow
from .sweep_table import Sweep
from .sweeping import sweep_faults
from .thousandths import thousandths
from .toxics import Bandwidth, Latency, LimitData, ResetPeer, Slicer, SlowClose, Timeout, Toxic

__all__ = [
    "Address",
    "AsyncToxi",
    "Bandwidth",
    "ClientRun",
    "Flaky",
    "Found",
    "Latency",
    "LimitData",
    "Link",
    "Met",
    "PickedToxic",
    "Progress",
    "Proxy",
    "Remembered",
    "ResetPeer",
    "Rule",
    "RunLink",
    "Search",
    "SearchResult",
    "Slicer",
    "SlowClose",
    "Sweep",
    "SweepRow",
    "Timeout",
    "Total",
    "Toxi",
    "ToxiEnded",
    "ToxiError",
    "ToxiFactory",
    "ToxiFault",
    "ToxiWarning",
    "Toxic",
    "Tried",
    "find_fault",
    "rerun",
    "rerun_command",
    "script_text",
    "sweep_faults",
    "thousandths",
]
