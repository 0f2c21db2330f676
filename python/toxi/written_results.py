"""Writes results where the command line, or a step of GitHub's CI, asks for them."""
import argparse
import json
import os
import sys
from pathlib import Path
from typing import Optional, Sequence

from . import campaign_page
from ._search.result_file import CLIENTS
from .client_results import Result
from .junit import junit_text
from .step_summary import VARIABLE, markdown_text


def add_files(parser: argparse.ArgumentParser) -> None:
    """The options that name files of a result."""
    for name, form in (("--json", "JSON"), ("--page", "an HTML page"), ("--junit", "JUnit's XML")):
        parser.add_argument(name, metavar="FILE", type=new_file, help=f"write the result as {form}")


def new_file(text: str) -> Path:
    """The path of a file that is to be written. One that can't be is told before anything runs."""
    path = Path(text)
    if path.is_dir() or not os.access(path.parent, os.W_OK):
        raise argparse.ArgumentTypeError(f"{text} can't be written")
    return path


def write_results(results: Sequence[Result], json_file: Optional[Path], page: Optional[Path], junit: Optional[Path] = None) -> None:
    """Writes results where they are asked for. Raises `OSError` where that can't be."""
    for path, text_of in ((json_file, json_text), (page, page_text), (junit, junit_text)):
        if path is not None:
            path.write_text(text_of(results), encoding="utf-8", errors="backslashreplace")
    summary = os.environ.get(VARIABLE)
    if summary:
        _append(Path(summary), markdown_text(results))


def _append(path: Path, text: str) -> None:
    """Puts a text behind a file. The summary of a step isn't worth its failure."""
    try:
        with path.open("a", encoding="utf-8") as file:
            file.write(text)
    except OSError as error:
        print(f"{VARIABLE}: {error}", file=sys.stderr)


def json_text(results: Sequence[Result]) -> str:
    """That of one client, or an object with those of several."""
    if len(results) == 1:
        return results[0].json_text()
    return json.dumps({CLIENTS: [result.members() for result in results]}, indent=1) + "\n"


def page_text(results: Sequence[Result]) -> str:
    """The page of one client, or of several."""
    return results[0].page_text() if len(results) == 1 else campaign_page.page_text(results)
