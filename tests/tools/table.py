"""The table of what was found, in Markdown, and the table that a document has of an earlier run."""
import dataclasses
import re
import tomllib
from typing import Any, Dict, Iterable, List, Optional, Sequence, Tuple

from row import Row

# The table of a document stands between these lines.
BEGIN, END = "<!-- The table is made by tests/tools/run. -->\n", "<!-- The table ends. -->\n"
HEAD = ("Row", "Tool", "Service", "Smallest fault", "What happens", "Date")
RIGHT = "Nothing was found for these:"
# A line of the table, or of the list below it, begins with the row's name.
NAMED = re.compile(r"(?:\| )?`([^`]+)`")


@dataclasses.dataclass(frozen=True)
class RowResult:
    """What a search of a row came to: the version of the tool, a date, and each fault with what happens. `tried` is how much was tried."""

    row: Row
    version: str
    date: str
    found: Sequence[Tuple[str, str]]
    tried: str

    @property
    def lines(self) -> List[str]:
        """The lines of the table, or the line of the list below it."""
        tool = f"{self.row.tool.name} {self.version}"
        if not self.found:
            return [f"`{self.row.name}` ({tool}, {self.row.service.words}: {self.tried}, {self.date})"]
        return [_line((f"`{self.row.name}`", tool, self.row.service.words, fault, happens, self.date)) for fault, happens in self.found]


def _line(cells: Iterable[str]) -> str:
    return f"| {' | '.join(cell.replace('|', '&#124;') for cell in cells)} |"


def fault_text(script: str, refused: Sequence[str]) -> str:
    """A script in a cell: its toxics, each with its stream and its connections."""
    rules = tomllib.loads(script).get("rule", [])
    toxics = [_toxic_text(rule, toxic) for rule in rules for toxic in rule["toxic"]]
    return "; ".join([*(f"connects to {name} are refused" for name in refused), *toxics])


def _toxic_text(rule: Dict[str, Any], toxic: Dict[str, Any]) -> str:
    values = " ".join(f"{name}={value}" for name, value in toxic["attributes"].items())
    return f"`{toxic['type']} {values}`, {toxic['stream']}, {_connections_text(rule['first'], rule.get('last'))}"


def _connections_text(first: int, last: Optional[int]) -> str:
    if last is None:
        return f"connections from {first} on"
    return f"connection {first}" if last == first else f"connections {first} to {last}"


def table_text(lines: Dict[str, List[str]], order: Sequence[str]) -> str:
    """The table and the list of rows that nothing was found for, in the order of the rows."""
    known = [line for name in order for line in lines.get(name, [])]
    table = [line for line in known if line.startswith("|")]
    right = [line for line in known if not line.startswith("|")]
    below = ["", RIGHT, *(f"{line}," for line in right[:-1]), f"{right[-1]}."] if right else []
    return "\n".join([_line(HEAD), _line(["---"] * len(HEAD)), *table, *below, ""])


def earlier_lines(document: str) -> Dict[str, List[str]]:
    """The lines that a document has for each row, by its name."""
    lines: Dict[str, List[str]] = {}
    for line in document.partition(BEGIN)[2].partition(END)[0].splitlines():
        named = NAMED.match(line)
        if named:
            lines.setdefault(named[1], []).append(line.rstrip(",."))
    return lines


def with_table(document: str, text: str) -> str:
    """The document with this table."""
    return re.sub(f"({re.escape(BEGIN)}).*?({re.escape(END)})", lambda found: found[1] + text + found[2], document, flags=re.DOTALL)
