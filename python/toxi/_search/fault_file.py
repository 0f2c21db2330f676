"""A fault as a file that can be committed: a script whose first line says of what it is the fault."""
import importlib.util
import json
from dataclasses import asdict, dataclass
from pathlib import Path
from typing import Any, Dict, Iterable, List, Tuple

from .. import toxics
from ..errors import ToxiError
from ..rules import Rule
from ..thousandths import thousandths
from .cases import Case

MARK = "# toxi-fault "
TOXICS = {kind.type: kind for kind in toxics.Toxic.__subclasses__()}


@dataclass(frozen=True)
class FaultAbout:
    """What the first line of a file says: the seed, the kind of the failure, the names of the upstreams, and those that refuse connects."""

    seed: int
    kind: str
    upstreams: Tuple[str, ...]
    refused: Tuple[str, ...] = ()

    def is_of(self, upstreams: Iterable[str]) -> bool:
        """Whether a client with upstreams of these names can meet the fault."""
        return set(self.upstreams) == set(upstreams)


def fault_text(case: Case, about: FaultAbout) -> str:
    """The text of a file. It is a script, and has no address and no path."""
    return f"{MARK}{json.dumps(asdict(about))}\n{case.script}"


def read_fault(path: Path) -> Tuple[Case, FaultAbout]:
    """The fault of a file. Raises `ToxiError` where it has none, and without a reader of TOML."""
    try:
        text = path.read_text(encoding="utf-8")
        line, _, script = text.partition("\n")
        if not line.startswith(MARK):
            raise ToxiError(f"{path}: its first line isn't `{MARK}` and an object of JSON")
        about = _about(json.loads(line[len(MARK) :]))
        rules = tuple(map(_rule, _toml(script).get("rule", [])))
    except (OSError, ValueError, KeyError, TypeError, AttributeError) as error:
        raise ToxiError(f"{path} can't be read as a fault: {type(error).__name__}: {error}") from None
    return Case(rules, frozenset(about.refused)), about


def _about(members: Dict[str, Any]) -> FaultAbout:
    return FaultAbout(int(members["seed"]), str(members["kind"]), tuple(members["upstreams"]), tuple(members.get("refused", ())))


def _toml(script: str) -> Dict[str, Any]:
    # Python has `tomllib` from 3.11 on.
    reader = next((name for name in ("tomllib", "tomli") if importlib.util.find_spec(name)), None)
    if reader is None:
        raise ToxiError("files of faults are read by Python 3.11 or later, or with the package tomli")
    document: Dict[str, Any] = importlib.import_module(reader).loads(script)
    return document


def _rule(table: Dict[str, Any]) -> Rule:
    made: List[toxics.Toxic] = [_toxic(toxic) for toxic in table["toxic"]]
    return Rule(table["proxy"], made, first=table.get("first", 1), last=table.get("last"))


def _toxic(table: Dict[str, Any]) -> toxics.Toxic:
    # `from` is a word of Python, so its field is `from_`.
    attributes = {f"{key}_" if key == "from" else key: value for key, value in table["attributes"].items()}
    toxicity = table.get("toxicity")
    if isinstance(toxicity, int):
        toxicity = thousandths(toxicity)
    return TOXICS[table["type"]](name=table.get("name"), stream=table["stream"], toxicity=toxicity, **attributes)
