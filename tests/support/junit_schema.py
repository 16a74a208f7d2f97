"""What Jenkins takes as JUnit XML, written down from the documented form of its schema (junit-10.xsd of its xunit plugin): elements,
what they may hold, and the form of their attributes."""

import re
from xml.etree import ElementTree

# Seconds have at most three digits behind the point.
TIME = re.compile(r"(([0-9]{0,3},)*[0-9]{3}|[0-9]{0,3})*(\.[0-9]{0,3})?")
ANY, NUMBER = re.compile("(?s).*"), re.compile("[0-9]+")
STAMP = re.compile(r"\d{4}-\d\d-\d\dT\d\d:\d\d:\d\d")
# Of each element: its attributes with their forms, the required ones, its possible content, and whether it may have a text.
ELEMENTS = {
    "testsuites": ({"name": ANY, "time": TIME, "tests": NUMBER, "failures": NUMBER, "disabled": NUMBER, "errors": NUMBER}, (),
                   {"testsuite"}, False),
    "testsuite": ({"name": ANY, "tests": NUMBER, "failures": NUMBER, "errors": NUMBER, "group": ANY, "time": TIME, "skipped": NUMBER,
                   "timestamp": STAMP, "hostname": ANY, "id": ANY, "package": ANY, "file": ANY, "log": ANY, "url": ANY,
                   "version": ANY}, ("name", "tests", "failures", "errors"),
                  {"testsuite", "properties", "testcase", "system-out", "system-err"}, False),
    "testcase": ({"name": ANY, "classname": ANY, "group": ANY, "time": TIME}, ("name",),
                 {"skipped", "error", "failure", "system-out", "system-err"}, False),
    "skipped": ({"type": ANY, "message": ANY}, (), set(), True),
    "error": ({"type": ANY, "message": ANY}, (), set(), True),
    "failure": ({"type": ANY, "message": ANY}, (), set(), True),
    "system-out": ({}, (), set(), True),
    "system-err": ({}, (), set(), True),
}
# In this order: older readers take no other.
ORDER = ["skipped", "error", "failure", "system-out", "system-err"]


def check_element(element):
    attributes, needed, inner, has_text = ELEMENTS[element.tag]
    for name, value in element.attrib.items():
        assert attributes[name].fullmatch(value), (element.tag, name, value)
    assert all(name in element.attrib for name in needed), (element.tag, element.attrib)
    assert has_text or not (element.text or "").strip(), (element.tag, element.text)
    tags = [child.tag for child in element]
    assert set(tags) <= inner, (element.tag, tags)
    if element.tag == "testcase":
        assert tags == sorted(tags, key=ORDER.index), tags
    for child in element:
        assert not (child.tail or "").strip(), child.tail


def read_checked(path):
    """The root of a report, each part of which is as the schema wants it, and whose counts are those of its cases."""
    root = ElementTree.parse(path).getroot()
    assert root.tag in ("testsuite", "testsuites"), root.tag
    for element in root.iter():
        check_element(element)
    cases = list(root.iter("testcase"))
    assert int(root.get("tests")) == len(cases)
    for name, tag in (("failures", "failure"), ("errors", "error"), ("skipped", "skipped")):
        assert int(root.get(name)) == sum(case.find(tag) is not None for case in cases), name
    return root


def is_red(root):
    """The rule by which services take a report as that of a failed run."""
    return int(root.get("failures")) + int(root.get("errors")) > 0


def rows_of(root):
    """Class, name and verdict of each case."""
    return [(case.get("classname"), case.get("name"), next((tag for tag in ("failure", "error", "skipped")
                                                            if case.find(tag) is not None), "passed")) for case in root.iter("testcase")]
