"""Of a trace by strace, whether the failed call is one that a run passes over. Such a call asks for room on standard error, or
belongs to the look at both files of the store for unreadable records, or to the second look at the project, after the text was
put and the report was written."""
import re

TEXT, REPORT = re.compile(r"(?:\d+ +)?write\(1[,<]"), re.compile(r"(?:\d+ +)?rename(?:at2?)?\(")
# (the store itself is opened to be written too, and what is opened for the look alone is read by pread64; a trace may have names in
# hexadecimal)
STORE = "(?:store_[ab]|" + "".join(rf"\\x{byte:02x}" for byte in b"store_") + r"\\x6[12])"
LOOK, READ = re.compile(rf'(?:\d+ +)?open(?:at)?\(.*{STORE}", O_RDONLY.* = (-?\d+)'), re.compile(r"(?:\d+ +)?pread64\((\d+)")


def is_passed_over(calls, has_report=False):
    """Whether the call that failed is one of these. The trace has to have the writes of the text, or the rename of the report; and
    where reads of the store fail, what opens it."""
    mark, seen, looked = REPORT if has_report else TEXT, False, set()
    for line in calls.splitlines():
        look, read = LOOK.match(line), READ.match(line)
        if "(INJECTED)" in line:
            return seen or "poll([{fd=2, events=POLLOUT}]" in line or look is not None or read is not None and read[1] in looked
        if look:
            looked.add(look[1])
        seen = seen or bool(mark.match(line))
    return False
