"""Results as JUnit's XML, which a CI reads: a suite for each client, and a case for each line of its faults."""
import xml.etree.ElementTree as xml
from typing import Iterable, List

from ._search.result import SearchResult
from .client_results import Result, client_of, safe_text, summary_of
from .fault_lines import FaultLine, lines_of


def junit_text(results: Iterable[Result]) -> str:
    """The XML. What no run has reached is skipped, and so is what came in no repetition."""
    root = xml.Element("testsuites")
    for result in results:
        root.append(_suite(result))
    xml.indent(root, " ")
    written: bytes = xml.tostring(root, encoding="utf-8", xml_declaration=True)
    return written.decode() + "\n"


def _suite(result: Result) -> xml.Element:
    client = client_of(result)
    cases = [_case(client, line) for line in lines_of(result)] + _flaky_cases(client, result)
    counts = {name: str(sum(case.find(child) is not None for case in cases)) for name, child in (("failures", "failure"), ("skipped", "skipped"))}
    suite = xml.Element("testsuite", {"name": client, "tests": str(len(cases)), "errors": "0", **counts, "time": f"{result.seconds:.3f}"})
    suite.extend(cases)
    xml.SubElement(suite, "system-out").text = safe_text(summary_of(result))
    return suite


def _case(client: str, line: FaultLine) -> xml.Element:
    case = xml.Element("testcase", {"classname": client, "name": line.name})
    if line.failures:
        failure = xml.SubElement(case, "failure", {"type": line.outcome, "message": line.failures[0].split("\n")[0]})
        failure.text = "\n\n".join(line.failures)
    elif line.kind is None:
        xml.SubElement(case, "skipped", {"message": f"no one of {line.runs} runs has reached it"})
    return case


def _flaky_cases(client: str, result: Result) -> List[xml.Element]:
    cases = []
    for number, flaky in enumerate(result.flaky if isinstance(result, SearchResult) else (), 1):
        case = xml.Element("testcase", {"classname": client, "name": f"flaky {number}: {safe_text(flaky.kind)}"})
        xml.SubElement(case, "skipped", {"message": "it came, but in no repetition"}).text = safe_text(flaky.script)
        cases.append(case)
    return cases
