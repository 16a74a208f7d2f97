#!/bin/sh
# Of several faults of a project the first is named: lines before the number of files, that before any file. File by file:
# whether it exists, its own bytes and the bytes so far. And all files before any is scanned.
. "$TOP/tests/support/needs.sh"
needs python3
PYTHONPATH=$TOP/tests/support exec python3 -B - "$VUNIT_RUN" <<'EOF'
import os, shutil, subprocess, sys

from told import without_told

program = sys.argv[1]
LISTING = b"lib,a.vhd\nlib,b.vhd\nlib,c.vhd\n"
PACKAGE = b"package a is\nend package a;\n"


def check(answer, files, place=None):
    """Compares what a run says of these files, and on standard error the line of a place, where there is one."""
    shutil.rmtree("project", ignore_errors=True)
    os.mkdir("project")
    for path, text in files.items():
        with open(os.path.join("project", path), "wb") as file:
            file.write(text)
    ran = subprocess.run([program, "--compile"], cwd="project", stdin=subprocess.DEVNULL, capture_output=True)
    status, text = answer
    said = place + b": " + text + b"\n" if place else b""
    if (ran.returncode, ran.stdout, without_told(ran.stderr)) != (status, b"vunit_run: " + text + b"\n", said):
        sizes = {path: (len(text), text[:60]) for path, text in files.items()}
        sys.exit(f"{sizes}: it is {ran.returncode, ran.stdout, ran.stderr} and not {answer, said}")


# The first bad line, also after one of more files than there may be, and also where its fault is one of the last bytes.
names = [b"lib,f%d\n" % row for row in range(4097)]
for text, csv in [
    (b"bad line 4097", b"".join(names[:4096]) + b"lib"),
    (b"bad line 4098", b"".join(names) + b"lib"),
    (b"bad line 4", b"\r\n\n lib\t, a.vhd \r\nlib,b.vhd\r"),
    (b"bad line 2", b"lib,a.vhd\n  \nlib\n"),
    (b"bad line 1", b"\xef\xbb\xbflib,a.vhd\n"),
]:
    check((1, b"vunit.csv: " + text), {"vunit.csv": csv}, b"vunit.csv:%s:1" % text.split()[-1])
check((1, b"lib, b.vhd is absent"), {"vunit.csv": LISTING, "a.vhd": b"foo"})

# The second of three files has a fault at file level; the third has one too, and is never named.
for second, text, place in [
    (b"foo", b"no design unit at 0", b"1:1"),
    (b"entity e is", b"design unit not ended at 0", b"1:1"),
    (b'package b is "abc', b"unclosed string at 13", b"1:14"),
    (b"\n\\abc\n", b"unclosed extended identifier at 1", b"2:1"),
    (b"entity e is end; /* end;", b"unclosed comment at 17", b"1:18"),
    (b"entity e is end;\nend;", b"no design unit at 17", b"2:1"),
]:
    files = {"vunit.csv": LISTING, "a.vhd": PACKAGE, "b.vhd": second, "c.vhd": b"foo"}
    check((1, b"lib, b.vhd: " + text), files, b"b.vhd:" + place)

# A file that 15 libraries list leaves 4,194,304 bytes for the others. The bytes of vunit.csv, of a.vhd and of b.vhd, if it
# exists; c.vhd has no design unit.
LONG = b"".join(b"lib%d,z.vhd\n" % at for at in range(15)) + LISTING
TEXT, TOTAL = (5, b"over limit: text bytes 4194304"), (5, b"over limit: total bytes 67108864")
SCANNED, ABSENT = (1, b"lib, c.vhd: no design unit at 0"), (1, b"lib, b.vhd is absent")
for csv, a, b, answer in [
    (4194305, 0, 0, TEXT),
    (4194304, 0, 0, SCANNED),
    (0, 4194305, None, TEXT),
    (0, 1000000, 4194305, TEXT),
    (0, 4194304, None, ABSENT),
    (0, 4194304, 1, TOTAL),
    (0, 4194304, 4194305, TEXT),
    (0, 4194304, 0, TOTAL),
    (0, 4194301, 0, SCANNED),
    (0, 0, 4194301, SCANNED),
    (0, 1000000, 3194301, SCANNED),
    (0, 1000000, 3194302, TOTAL),
]:
    files = {"vunit.csv": LONG.ljust(csv, b"\n"), "z.vhd": b" " * 4194304, "a.vhd": b" " * a, "c.vhd": b"foo"}
    if b is not None:
        files["b.vhd"] = b" " * b
    check(answer, files, b"c.vhd:1:1" if answer == SCANNED else None)

# A vunit.toml counts before a vunit.csv, and is read whole before a name is looked for.
LIBRARY = b'[[library]]\nname = "lib"\nfiles = ["%s.vhd"]\n'
for answer, toml, place in [
    (TEXT, (LIBRARY % b"a").ljust(4194305, b"\n"), None),
    ((1, b"vunit.toml isn't TOML"), b"lib,a.vhd\n", None),
    ((1, b"nothing matches d.vhd"), LIBRARY % b"d" + LIBRARY % b"a", None),
    ((1, b"library lib stands twice"), LIBRARY % b"a" + LIBRARY % b"d", None),
    ((1, b"lib, a.vhd: no design unit at 0"), LIBRARY % b"a", b"a.vhd:1:1"),
]:
    check(answer, {"vunit.toml": toml, "vunit.csv": b"bad\n", "a.vhd": b"foo"}, place)
EOF
