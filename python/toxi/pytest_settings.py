"""The plugin's settings: the command line, then pytest's ini, then the environment. The mark of a test comes before them."""
import os
from dataclasses import dataclass, replace
from pathlib import Path
from typing import Optional, Union

import pytest

MARK = "toxi"
NUMBERS = {
    "seed": "the seed of the fixtures, else $TOXI_SEED; else each test, module or session draws one",
    "workers": "the number of workers of `serve`, else $TOXI_WORKERS; else each link has threads of its own",
}


@dataclass(frozen=True)
class Settings:
    """What the command line and the ini tell. None where neither does."""

    seed: Optional[int]
    workers: Optional[int]
    program: Optional[str]
    artifacts: Optional[Path]
    faults: Optional[Path]


def add_settings(parser: pytest.Parser) -> None:
    """The options of the command line and the keys of the ini."""
    group = parser.getgroup("toxi")
    for name, about in NUMBERS.items():
        group.addoption(f"--toxi-{name}", type=int, metavar="N", help=about)
        parser.addini(f"toxi_{name}", about)
    about = "the program of the fixtures; else $TOXI, the package's own, or that of the PATH"
    group.addoption("--toxi-program", metavar="PATH", help=about)
    parser.addini("toxi_program", f"{about}. A path is relative to the ini's folder")
    parser.addini("toxi_faults", "a folder, from that of the ini, where searches write what they find, by the test's id, and whose faults they run first")
    about = "keeps files, logs and pages of red tests in DIR, by the test's id and attempt"
    group.addoption("--toxi-artifacts", metavar="DIR", help=about)
    parser.addini("toxi_artifacts", f"a folder DIR, from that of the ini: {about}")
    group.addoption("--toxi-page", metavar="FILE", help="writes one page of all searches and sweeps")
    group.addoption("--toxi-json", metavar="FILE", help="writes the results of all searches and sweeps as JSON, for toxi-merge")


def settings_of(config: pytest.Config) -> Settings:
    """The settings of a session. Raises `pytest.UsageError` for a number of the ini or of the environment that is none."""
    return Settings(
        _number(config, "seed"),
        _number(config, "workers"),
        config.getoption("--toxi-program") or _program_of_ini(config),
        _artifacts(config),
        _folder_of_ini(config, "faults"),
    )


def settings_at(node: Union[pytest.Item, pytest.Collector], config: pytest.Config) -> Settings:
    """The settings of what is run at a node, where its mark `toxi(seed=, workers=)` comes first. Raises `pytest.UsageError` for another mark."""
    settings = settings_of(config)
    mark = node.get_closest_marker(MARK)
    if mark is None:
        return settings
    if mark.args or not set(mark.kwargs) <= set(NUMBERS):
        raise pytest.UsageError(f"@pytest.mark.{MARK} takes seed= and workers=, as @pytest.mark.{MARK}(seed=7, workers=2)")
    return replace(settings, **mark.kwargs)


def require_artifacts(config: pytest.Config) -> None:
    """Raises `pytest.UsageError` where the folder of artifacts can't be made. It is made for the first red test."""
    folder = _artifacts(config)
    if folder is None:
        return
    there = next(path for path in (folder, *folder.parents) if path.exists())
    if not (there.is_dir() and os.access(there, os.W_OK | os.X_OK)):
        why = "can't be written" if there.is_dir() else "is no folder"
        raise pytest.UsageError(f"toxi-artifacts: {folder} can't be made, since {there} {why}")


def file_of(config: pytest.Config, name: str) -> Optional[Path]:
    """A path of the command line, from where pytest was started."""
    path: Optional[str] = config.getoption(f"--toxi-{name}")
    return None if path is None else config.invocation_params.dir / path


def _number(config: pytest.Config, name: str) -> Optional[int]:
    told: Optional[int] = config.getoption(f"--toxi-{name}")
    if told is not None:
        return told
    variable = f"TOXI_{name.upper()}"
    for place, text in ((f"toxi_{name} of the ini", config.getini(f"toxi_{name}")), (variable, os.environ.get(variable))):
        if text:
            try:
                return int(text)
            except ValueError:
                raise pytest.UsageError(f"{place} is {text!r}, no whole number") from None
    return None


def _program_of_ini(config: pytest.Config) -> Optional[str]:
    """A name is looked for on the PATH. A path is one from the ini's folder."""
    program: str = config.getini("toxi_program")
    if os.sep not in program:
        return program or None
    return str(_ini_folder(config) / program)


def _artifacts(config: pytest.Config) -> Optional[Path]:
    return file_of(config, "artifacts") or _folder_of_ini(config, "artifacts")


def _folder_of_ini(config: pytest.Config, name: str) -> Optional[Path]:
    folder: str = config.getini(f"toxi_{name}")
    return _ini_folder(config) / folder if folder else None


def _ini_folder(config: pytest.Config) -> Path:
    return config.inipath.parent if config.inipath else config.rootpath
