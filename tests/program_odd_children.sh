#!/bin/sh
# Compilers that do what they shouldn't: each has its answer, and a time in which it comes.
. "$TOP/tests/support/needs.sh"
needs python3
PYTHONPATH=$TOP/tests/support exec python3 -B - <<'END'
import os, shutil, time

from store_reader import records_of
from trial import build_text, end, environment, expect, fail, package, project, toml, write

FILE = (b"lib", b"a.vhd")
SHORT, LONG = package("a"), package("a") + "-- a long comment\n" * 12000
PASSED, FAILED = build_text([FILE]), "Compiling into lib: a.vhd failed\n{}Compile failed\n"


def make(script, files, compiler=("sh", "compiler.sh")):
    project("project", files | {"compiler.sh": script, "vunit.toml": toml({"lib": ["*.vhd"]}, list(compiler))})


def row(name, script, source, status, text, least, most, error="", artefact=None):
    """A build of one file by this compiler: its answer, the seconds that it takes, and the artefact that is recorded."""
    make(script, {"a.vhd": source})
    begun = time.monotonic()
    expect(name, "project", status, text, "--compile", error=error)
    took = time.monotonic() - begun
    if not least <= took <= most:
        fail(name, f"it took {took:.2f} seconds, and not {least} to {most}")
    found = [record.artefact for record in records_of("project")]
    if found != ([] if artefact is None else [artefact]):
        fail(name, f"recorded are {found}")


def start_fault(said, command="sh compiler.sh"):
    return f"vunit_run: fault of start\nvunit_run: {command}: {said}\n"


BROKEN = "write: Broken pipe (os error 32)"
row("it never reads a long request", "sleep 1", LONG, 3, "", 1, 10, start_fault(BROKEN))
row("it never reads a short request", "sleep 1; echo made", SHORT, 0, PASSED, 1, 10, artefact=b"made\n")
row("it closes its input early", "head -c 100 >head; exec <&-; sleep 0.5", LONG, 3, "", 0.5, 10, start_fault(BROKEN))
row("it prints before it reads", "head -c 200000 /dev/zero; cat >/dev/null", LONG, 0, PASSED, 0, 10, artefact=bytes(200000))
row("it prints 1 GB", "cat >/dev/null; head -c 1000000000 /dev/zero | tr '\\0' x", SHORT, 1, FAILED.format("x" * 4096 + "\n"), 0, 60)
row("it closes its output and goes on", "cat >/dev/null; echo made; exec >&-; sleep 0.5", SHORT, 0, PASSED, 0.5, 10, artefact=b"made\n")
row("it leaves one behind that has its output", "cat >/dev/null; (sleep 1; echo late) & echo soon", SHORT, 0, PASSED, 1, 10, artefact=b"soon\nlate\n")
row("it is killed", "cat >/dev/null; echo some; kill -9 $$", SHORT, 1, FAILED.format("some\n"), 0, 10)
row("it is stopped and goes on", "cat >/dev/null; (sleep 0.5; kill -CONT $$) >/dev/null & kill -STOP $$; echo made", SHORT, 0, PASSED, 0.5, 10, artefact=b"made\n")
make("", {"a.vhd": SHORT}, ["./no\x1bsuch", "word"])
expect("there is no such program", "project", 3, "", "--compile", error=start_fault("start: No such file or directory (os error 2)", "./no?such word"))

# One that is left behind with the output of a holds up neither b nor c, which b waits for.
WAITING = """cat >request.$$
name=$(grep -a -o 'package [a-z0-9]* is' request.$$ | cut -d ' ' -f 2)
rm request.$$
touch begun.$name
until_there() { left=2000; until [ -e $1 ]; do left=$((left - 1)); [ $left -gt 0 ] || exit 1; sleep 0.005; done; }
case $name in
    a) (until_there begun.c; echo late) & ;;
    b) echo soon ;;
esac
"""
make(WAITING, {f"{name}.vhd": package(name) for name in "abc"})
expect("one that is left behind", "project", 0, build_text([(b"lib", b"%c.vhd" % name) for name in b"abc"]), "--compile", "-p", "2")

# A child that says that it has no answer is lost: it isn't refused and not recorded, and the next run starts it again.
row("it has no answer", "cat >/dev/null; exit 75", SHORT, 3, "", 0, 10, "vunit_run: fault of child\nvunit_run: lib, a.vhd: end: its code, 75, says that it has no answer\n")
row("it has no answer after it printed", "cat; exit 75", SHORT, 3, "", 0, 10, "vunit_run: fault of child\nvunit_run: lib, a.vhd: end: its code, 75, says that it has no answer\n")
write("project", {"compiler.sh": "cat >/dev/null; echo made"})
expect("it has an answer now", "project", 0, PASSED, "--compile")
expect("it has an answer, and once more", "project", 0, build_text([]), "--compile")
row("the code after that is an answer", "cat >/dev/null; exit 76", SHORT, 1, FAILED.format(""), 0, 10)

# Descriptors run out: what runs is recorded, and the next run compiles the others.
NAMES = [f"f{at:02}" for at in range(64)]
make("cat >/dev/null; touch begun.$$; left=400; until [ -e go ] || [ $left -eq 0 ]; do left=$((left - 1)); sleep 0.005; done; echo made", {f"{name}.vhd": package(name) for name in NAMES})
few = ["sh", "-c", 'ulimit -n 40; exec "$@"', "sh"]
error = start_fault("start: Too many open files (os error 24)")
expect("descriptors run out", "project", 3, "", "--compile", "-p", "64", error=error, before=few)
begun = [name for name in os.listdir("project") if name.startswith("begun.")]
kept = {record.asked.path for record in records_of("project")}
if not 10 <= len(begun) < 64 or len(kept) != len(begun):
    fail("descriptors run out", f"{len(begun)} were started, and {len(kept)} are recorded")
write("project", {"go": ""})
rest = [(b"lib", f"{name}.vhd".encode()) for name in NAMES if f"{name}.vhd".encode() not in kept]
expect("descriptors are there again", "project", 0, build_text(rest), "--compile", "-p", "64")
end()
END
