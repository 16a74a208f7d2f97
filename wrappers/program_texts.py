"""Takes apart what vunit_run prints: a refusal, warnings, what a compiler said of each file, and verdicts. Everything in
bytes."""

import re

PROGRAM, WARNING = b"vunit_run: ", b"vunit_run: warning: "
COMPILED = re.compile(rb"Compiling into ([A-Za-z][A-Za-z0-9_]*): (.*) (passed|failed|skipped)\Z")
PLACED = re.compile(rb"([^:]+):(\d{1,9}):(\d{1,9}):(?:(error|warning|note):)? ?(.*)\Z")
LISTED = re.compile(rb"([A-Za-z][A-Za-z0-9_]*), (.+)\Z")
ENDS = (b"Compile failed", b"Compile passed", b"Re-compile not needed")
VERDICT = re.compile(rb"(pass|fail|skip) (.+)\Z")


class PlacedLine:
    """A line `PATH:LINE:COLUMN: TEXT`, where the word warning or note may stand before the text. Line and column are from 1 on."""

    def __init__(self, match):
        self.path, self.line, self.column = match[1], int(match[2]), int(match[3])
        self.kind, self.text = match[4] or b"error", match[5]


def placed(line):
    match = PLACED.match(line)
    return PlacedLine(match) if match else None


def warnings_in(text):
    """The texts of warnings, in order, of a stream in which lines of others may stand before them."""
    return [line.partition(WARNING)[2] for line in text.split(b"\n") if WARNING in line]


def refusal_in(text):
    """The refusal that a text has, without the program's name; with the lines of a cycle. None if it lacks one."""
    lines = text.split(b"\n")
    for at, line in enumerate(lines):
        if line.startswith(PROGRAM) and not line.startswith(WARNING):
            more = at + 1
            while more < len(lines) and lines[more].startswith(b"  "):
                more += 1
            return b"\n".join([line[len(PROGRAM) :], *lines[at + 1 : more]])
    return None


def files_in(text):
    """The libraries and paths of a list of files."""
    return [(match[1], match[2]) for line in text.split(b"\n") if (match := LISTED.match(line))]


class CompiledFile:
    """The status of a file in a build, and the lines that its compiler printed."""

    def __init__(self, library, path, end):
        self.library, self.path, self.end, self.lines = library, path, end, []


def compiled_in(text, files):
    """The files that a build names, in order. `files` are those of the project: a compiler may print what looks like such a line."""
    found, known = [], set(files)
    for line in text.split(b"\n"):
        match = COMPILED.match(line)
        if match and (not known or (match[1], match[2]) in known):
            found.append(CompiledFile(match[1], match[2], match[3]))
        elif line in ENDS:
            break
        elif found and found[-1].end == b"failed":
            found[-1].lines.append(line)
    return found


def messages_of(lines):
    """The messages among the lines of a compiler: pairs of a placed line, or None, and the words. The line of the source that GHDL
    repeats, and the mark below it, are left out: an editor shows both."""
    found = []
    for at, line in enumerate(lines):
        if place := placed(line):
            found.append([place, place.text])
        elif not line.strip() or line.strip() == b"^":
            continue
        elif line.startswith(b" ") and lines[at + 1 : at + 2] and lines[at + 1].strip() == b"^":
            continue
        elif found and line.startswith(b" "):
            found[-1][1] += b"\n" + line
        elif found and found[-1][0] is None:
            found[-1][1] += b"\n" + line
        else:
            found.append([None, line])
    return found


def outputs_in(text, names):
    """The verdict of each of these tests, and what was printed above it, since the verdicts before and behind the build."""
    lines = text.split(b"\n")
    begin = next((at + 1 for at, line in enumerate(lines) if line in ENDS), 0)
    found, printed, has_ended, known = {}, [], False, set(names)
    for line in lines[begin:]:
        match = VERDICT.match(line)
        if match and match[2] in known:
            found[match[2]] = match[1], printed
            has_ended = True
            continue
        if has_ended:
            printed, has_ended = [], False
        printed.append(line)
    return {name: (verdict, b"\n".join(printed)) for name, (verdict, printed) in found.items()}
