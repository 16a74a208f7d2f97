#!/bin/sh
# What surrounds a start changes nothing of what is built and said: a folder of the program whose name is not UTF-8, and a
# number of 1 as in a container. A limit of the size of files is a fault by name, and loses nothing.
. "$TOP/tests/support/needs.sh"
needs python3
PYTHONPATH=$TOP/tests/support exec python3 -B - <<'END'
import os, shutil, subprocess

from told import without_told
from trial import PROGRAM, build_text, end, expect, fail, package, project, toml, write

FILES = [(b"lib", b"a.vhd"), (b"lib", b"b.vhd")]
BUILT = build_text(FILES), build_text([])


def make():
    project("project", {"vunit.toml": toml({"lib": ["*.vhd"]}), "a.vhd": package("a"), "b.vhd": package("b") + "-- long\n" * 1000})


def run(name, command, text):
    ran = subprocess.run([*command, "--compile"], cwd="project", stdin=subprocess.DEVNULL, capture_output=True)
    if (ran.returncode, ran.stdout, without_told(ran.stderr)) != (0, text.encode(), b""):
        fail(name, f"it is {ran}\nand not {text}")


def is_possible(command):
    return subprocess.run([*command, "true"], stdin=subprocess.DEVNULL, capture_output=True).returncode == 0


# (the launcher is a script that finds the program by its own folder; the program itself is copied)
with open(PROGRAM, "rb") as file:
    is_script = file.read(2) == b"#!"
if is_script:
    print("not tried: a copy of the launcher")
else:
    odd = os.path.join(os.path.abspath(".").encode(), b"odd \xff\xfe")
    os.mkdir(odd)
    shutil.copy(PROGRAM, os.path.join(odd, b"vunit_run"))
    make()
    for text in BUILT:
        run("a folder that is not UTF-8", [os.path.join(odd, b"vunit_run")], text)
    make()
    ran = subprocess.run([b"\xff", "--compile"], executable=PROGRAM, cwd="project", stdin=subprocess.DEVNULL, capture_output=True)
    if (ran.returncode, ran.stdout) != (0, BUILT[0].encode()):
        fail("a name that is not UTF-8", f"it is {ran}")
    ran = subprocess.run([PROGRAM, b"\xff"], cwd="project", stdin=subprocess.DEVNULL, capture_output=True)
    if ran.returncode != 2 or not ran.stdout.startswith(b"usage: vunit_run "):
        fail("a word that is not UTF-8", f"it is {ran}")

first = ["unshare", "--pid", "--fork", "--kill-child"]
if is_possible(first):
    make()
    for text in BUILT:
        run("the first process of a container", [*first, PROGRAM], text)
else:
    print("not tried: the first process of a container")

make()
small = ["sh", "-c", 'trap "" XFSZ; ulimit -f 4; exec "$@"', "sh"]
error = "vunit_run: fault of disk\nvunit_run: vunit_out/store_a: write: File too large (os error 27)\n"
expect("a limit of the size of files", "project", 3, "", "--compile", error=error, before=small)
expect("without the limit", "project", 0, build_text(FILES[1:]), "--compile")
expect("without the limit, once more", "project", 0, build_text([]), "--compile")
end()
END
