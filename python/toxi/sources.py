"""How a file of its own names a function or a class that was given as a value."""
import inspect
import os
import site
import sys
import sysconfig
from dataclasses import dataclass
from pathlib import Path
from typing import Any, List, Optional


@dataclass(frozen=True)
class Source:
    """A module, the folder from which it is imported, unless every interpreter looks there, and the name in it."""

    folder: Optional[Path]
    module: str
    name: str


def source_of(value: Any) -> Optional[Source]:
    """Where a function or a class is imported from. None for one that has no name in a module, such as a local function."""
    module, name = getattr(value, "__module__", None), getattr(value, "__qualname__", None)
    if not isinstance(module, str) or not isinstance(name, str) or module not in sys.modules:
        return None
    if getattr(sys.modules[module], name, None) is not value:
        return None
    file = getattr(sys.modules[module], "__file__", None)
    if file is None:
        return None if module == "__main__" else Source(None, module, name)
    path = Path(os.path.abspath(file))
    if module == "__main__":
        return Source(path.parent, path.stem, name)
    above = len(module.split(".")) - (0 if path.name == "__init__.py" else 1)
    folder = path.parents[above]
    return Source(None if str(folder) in _searched_by_all() else folder, module, name)


def _searched_by_all() -> List[str]:
    """The folders of installed packages and of Python's own modules."""
    return [*site.getsitepackages(), sysconfig.get_path("stdlib")]


def place_of_source(value: Any) -> str:
    """Where a function stands, for a person."""
    try:
        return f"{inspect.getsourcefile(value)}, line {inspect.getsourcelines(value)[1]}"
    except (OSError, TypeError):
        return repr(value)
