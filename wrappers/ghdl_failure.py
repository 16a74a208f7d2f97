"""How a bench has failed, by the log of its simulation: the shown part of the log, and one line `PATH:LINE: MESSAGE`.

A log has lines of the bench's loggers, `TIME - LOGGER - LEVEL - MESSAGE`, and what GHDL says at the end of a failed simulation:

    logger_pkg.vhd:235:5:@40ns:(report failure): stopped, since error is at or above the stop level
    /usr/bin/ghdl-mcode:error: report failed
    in process .tb(sim).main
      from: vunit_lib.check_pkg.check_equal at check_pkg.vhd:205
      from: process tb_lib.tb(sim).main at tb.vhd:25
    /usr/bin/ghdl-mcode:error: simulation failed
"""

# Why it is so:
# The line with the cause is made of GHDL's output, so it covers an assertion, a range, a crash and VUnit's own packages.
# Lines of the packages that a bench calls would not.

import os, re

from ghdl_library import as_named, name_of
from shipped_library import SHIPPED

LOGGED = re.compile(rb"^.*? - .*? - +(ERROR|FAILURE|WARNING) - (.*)$")
FIRST_ERROR = re.compile(rb"^(?:.*? - .*? - +(?:ERROR|FAILURE) - |.*?:\d+:\d+:@\S+?:\((?:assertion|report) (?:error|failure)\): |"
                         rb"\S*:error: ).*$", re.MULTILINE)
REPORTED = re.compile(rb"^(.*?):(\d+):\d+:@\S+?:\([a-z ]+\): (.*)$")
# (what GHDL says of its end, and before the simulation of a file)
ENDED = re.compile(rb"^\S*:error: (.*)$")
AT_LAST = (b"simulation failed", b"error during elaboration")
REFUSED = re.compile(rb"^(.+?):(\d+):\d+: (?!warning)(.*)$")
FAULT_PLACE = re.compile(rb" at (.+):(\d+)$")
CRASHED = re.compile(rb"^raised (.*)$")
FRAME = b"  from: "
SHIPPED_FRAME = re.compile(rb"^  from: (?:process )?vunit_lib\.")
PLACE = re.compile(rb"^([^:/]+):\d+:\d+:(?=@)")
# What begins the report of a stop whose reason is in the log: of this vunit_lib, and of VUnit's own.
STOPPED = (b"stopped", b"Stop simulation")
VECTOR = re.compile(rb"(?<![^ ])[01UXZWLH_-]{9,}(?= \(-?\d+\)|[ .]|$)")
# Bytes of a log that are searched for the cause from its end, of a first error, and of the last line.
TAIL, ERROR_LIMIT, LINE_LIMIT = 65_536, 512, 1_024
PART = 1_048_576


def first_error(path):
    """The first line of a log that tells of an error, or nothing."""
    rest = b""
    with open(path, "rb") as log:
        while part := log.read(PART):
            text = rest + part
            if found := FIRST_ERROR.search(text):
                return found[0][:ERROR_LIMIT]
            # (a line that isn't whole is searched again, unless it is longer than any)
            rest = text[text.rfind(b"\n") + 1 :][-PART:]
    return b""


def last_bytes(path, count):
    """The end of a file, and whether it is the whole file."""
    with open(path, "rb") as log:
        size = log.seek(0, os.SEEK_END)
        log.seek(max(0, size - count))
        return log.read(), size <= count


def shown(text, packages):
    """A part of a log without what GHDL says of the packages that a bench calls: calls in them, and their places in reports. The
    second are those in the files that are named so."""
    lines = [line for line in text.split(b"\n") if not SHIPPED_FRAME.match(line)]
    return b"\n".join([line[found.end() :] if (found := PLACE.match(line)) and found[1] in packages else line for line in lines])


def digits_of(bits):
    """Four bits in hexadecimal form, as to_hstring of the standard writes them."""
    value = bits.replace(b"L", b"0").replace(b"H", b"1")
    if not value.strip(b"01"):
        return b"%X" % int(value, 2)
    return b"Z" if bits == b"ZZZZ" else b"X"


def in_hexadecimal(text):
    """A message with each vector of over 8 bits in hexadecimal form. (A number of this many digits is one if its value follows,
    or if it is longer than any integer.)"""

    def form(found):
        bits = found[0].replace(b"_", b"")
        is_vector = len(bits) > 10 or bits.strip(b"01") or text[found.end() :].startswith(b" (")
        # (a line of a frame has nothing but `-`)
        if len(bits) <= 8 or not is_vector or not bits.strip(b"-"):
            return found[0]
        bits = b"0" * (-len(bits) % 4) + bits
        return b'x"%s"' % b"".join([digits_of(bits[at : at + 4]) for at in range(0, len(bits), 4)])

    return VECTOR.sub(form, text)


class Cause:
    """What ended a simulation: a message, and where, by the file and line that GHDL names and the unit that the line is in."""

    def __init__(self, message, file=b"", line=b"", unit=b""):
        self.message, self.file, self.line, self.unit = message, file, line, unit


def frame_of(line):
    """File, line and unit of a call, `LIBRARY.UNIT..`."""
    name, _, place = line[len(FRAME) :].rpartition(b" at ")
    file, _, number = place.rpartition(b":")
    return file, number, name[len(b"process ") :] if name.startswith(b"process ") else name


def message_before(lines, at):
    """The message of the log that ends before the line `at`: it may have several lines."""
    for first in range(at - 1, -1, -1):
        if found := LOGGED.match(lines[first]):
            return b" ".join([found[2], *lines[first + 1 : at]])
        if REPORTED.match(lines[first]) or lines[first].startswith(FRAME):
            break
    return b""


def report_before(lines, at):
    """The report whose text ends before the line `at`: its match, its whole text, and where it begins."""
    for first in range(at - 1, -1, -1):
        if found := REPORTED.match(lines[first]):
            return found, b" ".join([found[3], *lines[first + 1 : at]]), first
        if lines[first].startswith(FRAME) or LOGGED.match(lines[first]):
            break
    return None, b"", 0


def cause_in(lines, first_logged):
    """The cause that the last lines of a log name, or None. `first_logged` is the first error of the whole log."""
    ends = [at for at, line in enumerate(lines) if (found := ENDED.match(line)) and found[1] not in AT_LAST]
    if not ends:
        return other_cause(lines)
    at = ends[-1]
    calls = [line for line in lines[at:] if line.startswith(FRAME)]
    own = [line for line in calls if not SHIPPED_FRAME.match(line)]
    found, text, first = report_before(lines, at)
    said = ENDED.match(lines[at])[1]
    if found and len(own) < len(calls):
        # (the packages of vunit_lib give the reason in the log, or in the report itself, which may be of more errors)
        logged = message_before(lines, first)
        text = logged if text.startswith(STOPPED) and logged else text
        if text.endswith(b" errors in the log") and first_logged:
            text += b", the first of them: " + first_logged
    message = text or FAULT_PLACE.sub(b"", said)
    # (a call is named by the line after it, where that has its end)
    place = found if len(own) == len(calls) else None
    place = place or FAULT_PLACE.search(said)
    if place:
        return Cause(message, place[1], place[2])
    return Cause(message, *(frame_of(own[0]) if own else ()))


def other_cause(lines):
    """A crash, or what GHDL refuses before it simulates."""
    for line in lines:
        if found := CRASHED.match(line):
            return Cause(b"GHDL crashed: " + found[1])
    for line in lines:
        if found := REFUSED.match(line):
            return Cause(found[3], found[1], found[2])
    return None


def cause_of(path):
    """The cause that a log names, or None."""
    text, _ = last_bytes(path, TAIL)
    return cause_in(text.split(b"\n"), first_error(path))


def one_line(path, line, message):
    """The last line of the text about a failed bench."""
    message = in_hexadecimal(b" ".join(message.split()))
    text = b"%s:%s: %s" % (path, line, message)
    return text if len(text) < LINE_LIMIT else text[: LINE_LIMIT - 4] + b" .."


def last_lines(log, path, size):
    """The end of a log that is too long: a limited number of bytes, if possible from the start of a line."""
    head = b"(the last lines of %d bytes, all in %s)\n" % (os.stat(path).st_size, path)
    tail = log[-(size - len(head)) :]
    return head + (tail[tail.find(b"\n") + 1 :] if b"\n" in tail[:-1] else tail)


def with_line_end(text):
    return text + b"\n" if text and not text.endswith(b"\n") else text


class Failure:
    """The text about a failed bench: `line` is where and why, in one line."""

    def __init__(self, bench, used, code, said, log=None):
        """`log` is shown in place of that of the simulation."""
        self.log, self.said = log or bench.log, said
        self.packages = {*os.listdir(SHIPPED)} - {built.path for built in used.files}
        cause = None if said else cause_of(bench.log)
        told = said.removeprefix(b"ghdl_bench: ") or b"the simulation ended with code %d" % code
        message = cause.message if cause else told
        self.line = one_line(*place_of(bench, used, cause), message)

    def text(self, besides, limit):
        """A limited number of bytes: the log without GHDL's lines about the packages of vunit_lib, or its first error and its
        end; what the wrapper says, `besides`, and that line."""
        text, is_all = last_bytes(self.log, 4 * limit)
        text = with_line_end(shown(text, self.packages))
        whole = b"(all of the output is in %s)\n" % self.log
        end = besides + self.line + b"\n"
        if is_all and len(text) + len(self.said) + len(whole) + len(end) <= limit:
            return text + self.said + whole + end
        first, end = with_line_end(first_error(self.log)), self.said + end
        text = last_lines(text, self.log, limit - len(first) - len(end) - 1)
        return (b"" if first in text else first) + with_line_end(text) + end


def place_of(bench, used, cause):
    """The project's own path of a cause, and its line; those of the bench's architecture where GHDL names none."""
    if cause and cause.file:
        library, _, unit = cause.unit.partition(b".")
        unit = unit.partition(b".")[0].partition(b"(")[0]
        found = [built for built in used.files if is_named(built.path, cause.file, whole=not cause.unit)
                 and library in (b"", built.library)]
        found = [built for built in found if unit in map(name_of, built.units)] or found
        return found[0].path if found else cause.file, cause.line
    head = b"  architecture %s of %s at " % (bench.architecture, bench.name)
    for built in used.files:
        for unit in built.units if built.library == bench.library else ():
            if unit.startswith(head):
                return built.path, unit[len(head) :].partition(b"(")[0]
    return bench.name, b"1"


def is_named(path, name, whole):
    """Whether GHDL names a file so: its path, or the last part of that."""
    path = as_named(path)
    return path == name or not whole and path.rpartition(b"/")[2] == name.rpartition(b"/")[2]
