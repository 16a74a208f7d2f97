#!/bin/sh
# A report replaces only what is absent, empty or a report of its kind. Any other file is kept and named, and the text of the
# run is complete nevertheless. A pipe is written where somebody reads it, and never waited for.
. "$TOP/tests/support/needs.sh"
needs python3 mkfifo
PYTHONPATH=$TOP/tests/support exec python3 -B - <<'END'
import os, subprocess, threading

from trial import PROGRAM, end, expect, fail, project, toml, write

BENCH = ("entity t is generic (runner_cfg : string); end;\narchitecture a of t is begin\nx <= run(\"one\");\nend;\n")
RAN = "Re-compile not needed\npass lib.t.one\n==== Summary\npass 1 of 1\nfail 0 of 1\nskip 0 of 1\nAll passed!\n"
SUITE = ('<?xml version="1.0" encoding="utf-8"?>\n<testsuite name="testsuite" tests="1" failures="0" skipped="0" errors="0">\n'
         '  <testcase classname="lib.t" name="one"/>\n</testsuite>\n')
EXPORT = ('{"export_format_version":{"major":1,"minor":0,"patch":0},"files":[{"file_name":"t.vhd","library_name":"lib"}],'
          '"tests":[{"attributes":{},"location":{"file_name":"t.vhd","length":3,"offset":87},"name":"lib.t.one"}]}\n')
KEPT = "replace it: the file is not empty and no report of this kind, so it is kept"
# a file that is there, and whether a suite of tests and an export may take its place
FILES = [
    ("", True, True),
    (SUITE, True, False),
    ("<testsuites/>", True, False),
    ("<testsuite>", True, False),
    ("\n<testsuites\nname='x'>cut off", True, False),
    ("\ufeff<?xml version='1.0'?><!-- <a> --><?style x?><!DOCTYPE testsuites [<!ELEMENT a (b)>]>\n<testsuites>", True, False),
    ("<!DOCTYPE testsuite SYSTEM 'x.dtd'><testsuite />", True, False),
    ("<testsuite", False, False),
    ("<testsuiteish>", False, False),
    ("<testsuitess/>", False, False),
    ("<project><testsuite/></project>", False, False),
    ("<!-- <testsuite/>", False, False),
    ("<!-- <testsuite/> --> <html/>", False, False),
    ("<testsuite/>"[1:], False, False),
    (EXPORT, False, True),
    ('{"export_format_version": 1}', False, True),
    (' {"a": {"b": [1, "}"]}, "c\\"": "{", "export_format_version" : 1}', False, True),
    ('{"a": {"export_format_version": 1}}', False, False),
    ('["export_format_version", {}]', False, False),
    ('{"a": "export_format_version", "b": 1}', False, False),
    ('{"export_format_versions": 1}', False, False),
    ('{"\\u0065xport_format_version": 1}', False, False),
    ('{"a": "\\"export_format_version\\":"}', False, False),
    (BENCH, False, False),
    ("[[library]]\n", False, False),
    (" ", False, False),
    ("test_start:one\n", False, False),
    ("\0" * 100, False, False),
]


def check(name, words, path, status, text, error, holds):
    expect(name, "project", status, text, *words, error=error)
    if holds is not None:
        with open(f"project/{path}", newline="") as file:
            if (found := file.read()) != holds:
                fail(name, f"{path} holds {found[:300]!r}")


def fault(path, said):
    return f"vunit_run: fault of report\nvunit_run: {path}: {said}\n"


project("project", {"vunit.toml": toml({"lib": ["t.vhd"]}), "t.vhd": BENCH})
expect("the first run", "project", 0, RAN.replace("Re-compile not needed", "Compiling into lib: t.vhd passed\nCompile passed"))
for before, as_suite, as_export in FILES:
    for words, replaces, text, report in (["-x", "r"], as_suite, RAN, SUITE), (["--export-json", "r"], as_export, "", EXPORT):
        write("project", {"r": before})
        said = (0, text, "", report) if replaces else (3, text, fault("r", KEPT), before)
        check(f"{words[0]} over {before[:60]!r}", words, "r", *said)

# The project itself is kept, and so are links to it; what a link of a report leads to is replaced.
toml_text = toml({"lib": ["t.vhd"]})
for path, holds in ("t.vhd", BENCH), ("vunit.toml", toml_text), ("link", BENCH):
    if path == "link":
        os.symlink("t.vhd", "project/link")
    check(f"-x {path}", ["-x", path], path, 3, RAN, fault(path, KEPT), holds)
    check(f"--export-json {path}", ["--export-json", path], path, 3, "", fault(path, KEPT), holds)
os.symlink("r", "project/to_report")
write("project", {"r": SUITE.replace("1", "2")})
check("a link to a report", ["-x", "to_report"], "r", 0, RAN, "", SUITE)
if not os.path.islink("project/to_report"):
    fail("a link to a report", "the link is gone")

# A pipe that nobody reads is refused and not waited for. One that somebody reads is written.
os.mkfifo("project/pipe")
check("a pipe without a reader", ["-x", "pipe"], None, 3, RAN, fault("pipe", "write: nobody reads this pipe"), None)
check("a pipe without a reader", ["--export-json", "pipe"], None, 3, "", fault("pipe", "write: nobody reads this pipe"), None)
for words, text, report in (["-x", "pipe"], RAN, SUITE), (["--export-json", "pipe"], "", EXPORT):
    got = []
    reader = subprocess.Popen(["cat", "project/pipe"], stdout=subprocess.PIPE)
    # (cat has to wait in its open: a line of its own state says so)
    while open(f"/proc/{reader.pid}/wchan").read() not in ("wait_for_partner", "fifo_open", "0") or not open(f"/proc/{reader.pid}/stat").read().split(")")[1].startswith(" S"):
        pass
    expect(f"{words[0]} to a pipe", "project", 0, text, *words)
    got = reader.communicate(timeout=60)[0].decode()
    if got != report:
        fail(f"{words[0]} to a pipe", f"it holds {got!r}")
end()
END
