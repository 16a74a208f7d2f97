"""What runs of vunit_run find, each finding at its place: what a check says, messages of compilers, and verdicts of tests."""

import os

from program_texts import PROGRAM, messages_of, placed, warnings_in
from refusal_places import ERROR, HINT, INFORMATION, WARN, Finding

# The tabulators in GHDL's columns.
TAB = 8
SAID_LIMIT = 4096
SEVERITIES = {"pass": HINT, "fail": ERROR, "skip": WARN}
KINDS = {b"error": ERROR, b"warning": WARN, b"note": INFORMATION}


class Test:
    """A test of an export, and where it is named: `written` is what stood there."""

    def __init__(self, exported, split, data):
        location = exported["location"]
        self.name, self.path = exported["name"], location["file_name"]
        self.bench, self.case = split(self.name)
        self.place = location["offset"], location["offset"] + location["length"]
        self.written = data[slice(*self.place)]


def check_findings(run, places, refusal=None):
    """What a run without a build has said: its refusal, its warnings, and lines with places on standard error."""
    found = places.findings(refusal) if refusal is not None else []
    found += program_warnings(run, places)
    for line in run.errors().split(b"\n"):
        place = placed(line)
        if place and PROGRAM not in line and (where := places.column(place)):
            add_placed(found, place, where, refusal)
    return found


def program_warnings(run, places):
    """The warnings of the program itself."""
    counts = {}
    return [places.warning(text, counts) for text in [*dict.fromkeys(warnings_in(run.errors())), *warnings_in(run.output())]]


def add_placed(found, place, where, refusal):
    """Adds what a line with a place says: a refusal that has no place gets it, and one at that place isn't said again."""
    if any(one.path == place.path and one.place and (one.place[0] == where[0] or says_same(one.text, place.text)) for one in found):
        return
    lacking = next((one for one in found if one.place is None and one.text == refusal), None)
    if lacking:
        lacking.path, lacking.place = place.path, where
    elif place.text not in {one.text for one in found}:
        found.append(Finding(place.path, where, place.text))


def says_same(text, placed_text):
    """Whether a line with a place says once more what a refusal says: its end, or its words with a value behind them."""
    return text.endswith(placed_text) or placed_text.startswith(text.rpartition(b": ")[2])


def compile_findings(compiled, places):
    """The messages of compilers about the files that they refused. One without a place is at the first line of its file."""
    found = []
    for file in compiled:
        if file.end == b"failed":
            messages = messages_of(file.lines) or [(None, b"the compiler refused the file, and said nothing")]
            found += [compiler_finding(place, text, places, file.path) for place, text in messages]
    return found


def compiler_finding(place, text, places, path):
    if place and (where := places.column(place, TAB)):
        return Finding(place.path, where, text, KINDS[place.kind])
    return Finding(path, None, (place.path + b": " if place else b"") + text, KINDS[place.kind] if place else ERROR)


def warning_findings(errors, places, paths):
    """The warnings of compilers about files that were compiled: lines with a place among those on standard error."""
    found = []
    for line in errors.split(b"\n"):
        place = placed(line)
        if place and place.kind != b"error" and os.fsdecode(place.path) in paths:
            found.append(compiler_finding(place, place.text, places, place.path))
    return found


def verdict_finding(test, verdict, output):
    """The verdict of a test at its name, and, unless it passed, what was printed above it."""
    words, output = f"{verdict} {test.name}".encode(), output.strip(b"\n")[-SAID_LIMIT:]
    text = words + b"\n" + output if output and verdict != "pass" else words
    return Finding(os.fsencode(test.path), test.place, text, SEVERITIES[verdict], code=test.name)


def what_of(run, program):
    """Why a run has no answer, in words."""
    if run.fault:
        return f"{program} can't be started: {run.fault}"
    if run.status < 0:
        return f"{program} was ended by signal {-run.status}"
    parts = [run.output()[:SAID_LIMIT].strip(b"\n"), run.errors()[-SAID_LIMIT:].strip(b"\n")]
    text = b"\n".join(part for part in parts if part).decode("utf-8", "replace")
    return text or f"{program} ended with status {run.status}"
