"""Reports as JUnit's XML, with the elements that pytest's --junitxml writes."""
from collections.abc import Sequence
from xml.etree import ElementTree


class Suite:
    """The cases of a report."""

    def __init__(self, name: str) -> None:
        self.element = ElementTree.Element("testsuite", name=name)

    def case(self, title: str, name: str) -> ElementTree.Element:
        return ElementTree.SubElement(self.element, "testcase", classname=title, name=name, time="0.000")

    def add(self, title: str, name: str, wrong: Sequence[str], lines: Sequence[str] = ()) -> None:
        """A case that failed if something is wrong, with what else is told of it."""
        case = self.case(title, name)
        if wrong:
            mark(case, "failure", wrong[0], "\n".join([*wrong, *(line for line in lines if line not in wrong)]))

    def text(self) -> str:
        """The whole report."""
        counted = (("tests", "testcase"), ("failures", "failure"), ("errors", "error"), ("skipped", "skipped"))
        for kind, element in counted:
            self.element.set(kind, str(sum(1 for _ in self.element.iter(element))))
        suites = ElementTree.Element("testsuites")
        suites.append(self.element)
        ElementTree.indent(suites)
        return '<?xml version="1.0" encoding="utf-8"?>\n' + ElementTree.tostring(suites, "unicode") + "\n"


def mark(case: ElementTree.Element, kind: str, message: str, text: str) -> None:
    """Says how a case came out: `failure`, `error` or `skipped`."""
    element = ElementTree.SubElement(case, kind, message=message)
    element.text = text
