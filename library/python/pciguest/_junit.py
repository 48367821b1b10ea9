"""Results of boards in JUnit format, for build servers."""

from __future__ import annotations

from typing import List, NamedTuple, Optional
from xml.etree import ElementTree


class Result(NamedTuple):
    """The result of one board. If it failed, `wrong` is a line, and `told` is the whole report."""

    name: str
    seconds: float
    wrong: Optional[str] = None
    told: str = ""


def printable(text: str) -> str:
    """The text without characters that XML can't contain."""
    return "".join(each if each in "\n\t" or " " <= each < "\ud800" else "?" for each in text)


def write(file: str, results: List[Result]) -> None:
    failures = sum(result.wrong is not None for result in results)
    seconds = sum(result.seconds for result in results)
    suite = ElementTree.Element("testsuite", name="pciguest.firmware_test", tests=str(len(results)),
                                failures=str(failures), errors="0", time=f"{seconds:.3f}")
    for result in results:
        case = ElementTree.SubElement(suite, "testcase", classname="pciguest.firmware_test", name=result.name,
                                      time=f"{result.seconds:.3f}")
        if result.wrong is not None:
            failure = ElementTree.SubElement(case, "failure", message=printable(result.wrong))
            failure.text = printable(result.told)
    ElementTree.ElementTree(suite).write(file, encoding="utf-8", xml_declaration=True)
