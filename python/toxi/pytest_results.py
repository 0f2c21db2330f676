"""The results of a session's searches and sweeps, those of the workers of pytest-xdist too: one section, one page."""
import json
from collections import Counter
from dataclasses import replace
from pathlib import Path
from typing import Any, Iterable, List, Optional

import pytest

from ._search.result_file import results_of
from .client_results import Result, client_of, headline_of
from .written_results import write_results

# What a report has beside what pytest puts in. pytest-xdist sends it as it is.
ATTRIBUTE = "toxi_results"
NAME = "toxi-results"


def give_results(report: pytest.TestReport, results: Iterable[Result]) -> None:
    """Puts results into the report of a test, whose id is the name of their client."""
    texts: List[str] = getattr(report, ATTRIBUTE, [])
    texts += [replace(each, about=replace(each.about, client=report.nodeid)).json_text() for each in results if each.about is not None]
    setattr(report, ATTRIBUTE, texts)


class SessionResults:
    """Takes the results of all reports, and tells them once the session ends. It is a plugin of pytest."""

    def __init__(self, json_file: Optional[Path], page: Optional[Path]) -> None:
        self._json_file, self._page = json_file, page
        self._results: List[Result] = []
        self._names: "Counter[str]" = Counter()

    def pytest_runtest_logreport(self, report: pytest.TestReport) -> None:
        """Takes those of a report. The second search of a test has a number behind the name."""
        for text in getattr(report, ATTRIBUTE, ()):
            for result in results_of(json.loads(text)):
                assert result.about is not None
                name = result.about.client
                self._names[name] += 1
                number = f" {self._names[name]}" if self._names[name] > 1 else ""
                self._results.append(replace(result, about=replace(result.about, client=f"{name}{number}")))

    def pytest_terminal_summary(self, terminalreporter: Any) -> None:
        """One section: a line for each search and sweep, and where the page is."""
        if not self._results:
            return
        results = sorted(self._results, key=client_of)
        terminalreporter.section("toxi")
        for result in results:
            terminalreporter.line(f"{client_of(result)}: {headline_of(result)}")
        try:
            write_results(results, self._json_file, self._page)
            if self._page is not None:
                terminalreporter.line(f"page {self._page}")
        except OSError as error:
            terminalreporter.line(f"not written: {error}")
