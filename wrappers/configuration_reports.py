"""What vunit_configs says of a run: the text and the JUnit XML of the program with the names of configurations in them, in the
forms of docs/user/MANUAL.md and docs/FORMATS.md."""

import re

from run_data import FAILED, PASSED, SKIPPED
from vunit_tool import Test

WORDS = (PASSED, FAILED, SKIPPED)
NO_TESTS = b"No tests were run!\n"
SUMMARY = re.compile(rb"==== Summary\npass \d+ of (\d+)\nfail \d+ of \1\nskip \d+ of \1\n(?:All passed|Some failed)!\n\Z")
ESCAPES = {"&": "&amp;", "<": "&lt;", ">": "&gt;", '"': "&quot;", "'": "&apos;", "\ufffe": "\ufffd", "\uffff": "\ufffd"}
VERDICTS = {PASSED: b"/>\n", FAILED: b'>\n    <failure message="Failed"/>\n  </testcase>\n',
            SKIPPED: b">\n    <skipped/>\n  </testcase>\n"}


class ProgramText:
    """The text of a run by the program that shows no output of simulators: what comes before its tests, and their verdicts."""

    def __init__(self, said):
        self.before, self.verdicts = said, None
        if said.endswith(NO_TESTS):
            self.before, self.verdicts = said[: -len(NO_TESTS)], []
        elif found := SUMMARY.search(said):
            lines = said[: found.start()].splitlines(keepends=True)
            first = len(lines) - int(found[1])
            self.before = b"".join(lines[:first])
            self.verdicts = [tuple(line.rstrip(b"\n").split(b" ", 1)) for line in lines[first:]]


class Shown:
    """The cases of one start, with the text before them."""

    def __init__(self, names, output=b""):
        self.names, self.output = names, output

    def lines(self, is_quiet, is_verbose):
        shows = not is_quiet and (is_verbose or any(name.verdict != PASSED for name in self.names))
        output = self.output if shows else b""
        yield output + (b"\n" if output and not output.endswith(b"\n") else b"")
        for name in self.names:
            yield b"%s %s\n" % (name.verdict, name.full())


def shown_tests(plan, server, verdicts):
    """The text about the tests of the program in their order, by its verdicts."""
    left, found, seen = {name: verdict for verdict, name in verdicts}, [], set()
    for name, verdict in left.items():
        run = server.runs.get(name)
        if run is None:
            found.append(Shown(unstarted(plan, Test(name.decode()), verdict)))
        elif id(run) not in seen:
            seen.add(id(run))
            found += shown_run(run, server, left)
    return [shown for shown in found if shown.names]


def unstarted(plan, test, verdict):
    """The names of a test that was never started. Only the verdict of a bench without configurations can be a pass."""
    names = plan.names_of_test(test, verdict)
    for name in names:
        if verdict == PASSED and name.is_configured:
            name.verdict = FAILED
    return names


def shown_run(run, server, verdicts):
    """The text about a run: of configurations that of their stand-in, of other benches that of the program."""
    is_denied = any(verdicts.get(name) != PASSED for name in run.names)
    if run.is_configured and is_denied and all(start.has_passed() for start in run.starts):
        # (the answer of the stand-in was lost)
        for start in run.starts:
            start.fail()
    for start in run.starts:
        names = start.names()
        for name in names:
            program = verdicts.get(name.full()) if not run.is_configured else None
            if program is not None and start.has_begun():
                name.verdict = program
        yield Shown(names, server.shown(start))


def text_of(shown, is_quiet, is_verbose):
    names = [name for one in shown for name in one.names]
    if not names:
        return NO_TESTS
    lines = [line for one in shown for line in one.lines(is_quiet, is_verbose)]
    counts = [b"%s %d of %d\n" % (word, sum(name.verdict == word for name in names), len(names)) for word in WORDS]
    last = b"All passed!\n" if all(name.verdict == PASSED for name in names) else b"Some failed!\n"
    return b"".join([*lines, b"==== Summary\n", *counts, last])


def escaped(text):
    return "".join([ESCAPES.get(letter, letter) for letter in text.decode()]).encode()


def junit_of(shown):
    names = [name for one in shown for name in one.names]
    failures, skipped = (sum(name.verdict == word for name in names) for word in (FAILED, SKIPPED))
    cases = [b'  <testcase classname="%s" name="%s"%s' % (escaped(name.bench), escaped(name.case), VERDICTS[name.verdict])
             for name in names]
    suite = b'<testsuite name="testsuite" tests="%d" failures="%d" skipped="%d" errors="0">\n' % (len(names), failures, skipped)
    return b"".join([b'<?xml version="1.0" encoding="utf-8"?>\n', suite, *cases, b"</testsuite>\n"])
