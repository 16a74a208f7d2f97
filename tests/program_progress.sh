#!/bin/sh
# On a terminal, and there alone, standard error has a line that is written over while compilers run: counts, seconds and the oldest
# child. Nothing depends on it.
. "$TOP/tests/support/needs.sh"
needs python3
PYTHONPATH=$TOP/tests/support exec python3 -B - <<'END'
import os, pty, re, subprocess, threading

from told import without_told
from trial import PROGRAM, build_text, end, expect, fail, package, project, toml, write

BEGIN, EMPTY, END = b"\x1b[?7l", b"\r\x1b[K", b"\x1b[?7h\r"
ALL = [(b"lib", b"a.vhd"), (b"lib", b"b\x01.vhd")]
TEXT = build_text(ALL).encode()


def make(script="cat >/dev/null"):
    project("project", {"a.vhd": package("a"), "b\x01.vhd": package("b", "work.a"), "compiler.sh": script,
                        "vunit.toml": toml({"lib": ["*.vhd"]}, ["sh", "compiler.sh"])})


def on_terminal(term, goes_away=False):
    """Status, standard output and what a terminal gets that is standard error."""
    master, slave = pty.openpty()
    given = dict(os.environ)
    given.pop("TERM", None)
    if term is not None:
        given["TERM"] = term
    got = []

    def read():
        try:
            while data := os.read(master, 65536):
                got.append(data)
        except OSError:
            pass

    child = subprocess.Popen([PROGRAM, "--compile"], cwd="project", env=given, stdin=subprocess.DEVNULL, stdout=subprocess.PIPE, stderr=slave)
    os.close(slave)
    if goes_away:
        os.close(master)
    else:
        reader = threading.Thread(target=read)
        reader.start()
    said = child.communicate(timeout=60)[0]
    if not goes_away:
        reader.join()
        os.close(master)
    return child.returncode, said, plain(b"".join(got))


def plain(told):
    """What a terminal gets, with no second passed, each line once, and without warnings."""
    told = without_told(re.sub(rb", \d+ s: ", b", 0 s: ", re.sub(rb"\(\d+\.\d s\)", b"(T)", told)))
    parts = told.split(BEGIN)
    return BEGIN.join(part for at, part in enumerate(parts) if at == 0 or part != parts[at - 1])


def shown(done, due, title, failed=0):
    return BEGIN + EMPTY + b"[%d/%d] %d passed, %d failed, 0 s: %s" % (done, due, done - failed, failed, title) + END


make()
wanted = shown(0, 2, b"lib, a.vhd") + EMPTY + shown(1, 2, b"lib, b?.vhd") + EMPTY
for term in "xterm", "vt100":
    make()
    ran = on_terminal(term)
    if ran != (0, TEXT, wanted):
        fail(f"a terminal, {term}", f"it is {ran}\nand not {0, TEXT, wanted}")
ran = on_terminal("xterm")
if ran != (0, b"Re-compile not needed\n", b""):
    fail("nothing is due", f"it is {ran}")
for term in "dumb", "", None:
    make()
    ran = on_terminal(term)
    if ran != (0, TEXT, b""):
        fail(f"a terminal that writes nothing over, {term}", f"it is {ran}")
make("cat >/dev/null; exit 75")
ran = on_terminal("xterm")
lost = b"vunit_run: fault of child\r\nvunit_run: lib, a.vhd: end: its code, 75, says that it has no answer\r\n"
if ran != (3, b"", shown(0, 2, b"lib, a.vhd") + EMPTY + lost):
    fail("a fault on a terminal", f"it is {ran}")
make("cat >/dev/null; sleep 0.5")
ran = on_terminal("xterm", goes_away=True)
if ran[:2] != (0, TEXT):
    fail("a terminal that goes away", f"it is {ran}")

# Without a terminal there is no progress line; a closed standard error changes nothing else.
make()
expect("a pipe", "project", 0, TEXT.decode(), "--compile")
closed = ["sh", "-c", 'exec 2>&-; exec "$@"', "sh"]
make()
expect("a closed standard error", "project", 0, TEXT.decode(), "--compile", before=closed)
write("project", {"a.vhd": "foo"})
expect("a closed standard error, and a refusal", "project", 1, "vunit_run: lib, a.vhd: no design unit at 0\n", "--compile", before=closed)
make("cat >/dev/null; exit 75")
expect("a closed standard error, and a fault", "project", 3, "", "--compile", before=closed)
end()
END
