#!/bin/sh
# The program as the compiler and as the simulator of another run: what it answers to its standard input, and the results
# that a simulator leaves before it prints anything.
. "$TOP/tests/support/needs.sh"
needs python3
PYTHONPATH=$TOP/tests/support exec python3 -B - <<'END'
import os, struct, subprocess

from trial import PROGRAM, end, fail, project

REFUSED = (2, b"bad request\n", b"")


def texts(*parts):
    return b"".join(struct.pack("<I", part) if isinstance(part, int) else struct.pack("<I", len(part)) + part for part in parts)


def answers(name, words, request, wanted, results=None, **given):
    ran = subprocess.run([PROGRAM, *words], input=request, capture_output=True, cwd="room", **given)
    if (found := (ran.returncode, ran.stdout, ran.stderr)) != wanted:
        fail(name, f"it is {found} and not {wanted}")
    left = sorted(os.listdir("room"))
    if results is None and left:
        fail(name, f"it left {left}")
    elif results is not None:
        path, text = results
        with open(os.path.join("room", path), "rb") as file:
            if (found := file.read()) != text:
                fail(name, f"its results are {found} and not {text}")
    project("room", {})


def source(text, *built, library=b"lib", path=b"a.vhd"):
    return b"VRC1" + texts(library, path, text, len(built), *(part for file in built for part in file))


project("room", {})
answers("a file that is no VHDL", ["child-analyse"], bytes.fromhex("56524331030000006c696205000000612e766864010000007800000000"), (1, b"a.vhd: not VHDL\n", b""))
answers("a byte more", ["child-analyse"], source(b"x") + b"x", REFUSED)
answers("a byte less", ["child-analyse"], source(b"x")[:-1], REFUSED)
answers("no request", ["child-analyse"], b"", REFUSED)
answers("no unit", ["child-analyse"], source(b"-- nothing\n"), (0, b"", b""))
answers("a package", ["child-analyse"], source(b"package P is\nend;\n-- child: note 1\n"), (0, b"unit package p\nscript note 1\n", b""))
answers("words that aren't looked at", ["child-analyse", "--frob", "x"], source(b"package p is\nend;\n"), (0, b"unit package p\n", b""))
answers("a refusal", ["child-analyse"], source(b"-- child: refuse it\npackage p is end;"), (1, b"it\n", b""))
answers("an architecture", ["child-analyse"], source(b"entity e is end; architecture r of e is begin end;"), (0, b"unit entity e\nunit architecture r of e\n", b""))
answers("a unit that isn't there", ["child-analyse"], source(b"use work.q.all; package p is end;"), (1, b"a.vhd: no unit lib.q\n", b""))
answers("a unit that is there", ["child-analyse"], source(b"use work.q.all; package p is end;", (b"lib", b"q.vhd", b"unit package q\n")), (0, b"unit package p\n", b""))


def bench(cases, *built, results=b"r/s/t", name=b"t", library=b"lib"):
    return b"VRB1" + texts(library, name, b"a", len(cases), *cases, b"cfg", results, len(built), *(part for file in built for part in file))


HERE = (b"lib", b"t.vhd", b"unit entity t\nunit architecture a of t\n")
FAILS = (b"lib", b"n.vhd", b"unit package n\nscript fail lib.t.two\n")
answers("no bench request", ["child-bench"], b"", REFUSED)
answers("a compile request", ["child-bench"], source(b"x"), REFUSED)
answers("a byte more of a bench request", ["child-bench"], bench([b"one"], HERE) + b"x", REFUSED)
answers("a bench that isn't there", ["child-bench"], bench([b"one"]), (1, b"no bench\n", b""), ("r/s/t", b""))
answers("one of another library", ["child-bench"], bench([b"one"], HERE, library=b"other"), (1, b"no bench\n", b""), ("r/s/t", b""))
answers("two cases", ["child-bench"], bench([b"one", b"two"], HERE), (0, b"", b""), ("r/s/t", b"test_start:one\ntest_start:two\ntest_suite_done\n"))
answers("words behind it", ["child-bench", "child-analyse"], bench([], HERE), (0, b"", b""), ("r/s/t", b"test_suite_done\n"))
answers("a case that fails", ["child-bench"], bench([b"one", b"two", b"three"], HERE, FAILS), (1, b"failed lib.t.two\n", b""), ("r/s/t", b"test_start:one\ntest_start:two\n"))
answers("a bench without cases that fails", ["child-bench"], bench([], (b"lib", b"t.vhd", HERE[2] + b"script fail lib.t.all\n")), (1, b"failed lib.t.all\n", b""), ("r/s/t", b""))

# Results that can't be written: nothing is put. An output that is full: the results are there.
with open("room/r", "w"):
    pass
ran = subprocess.run([PROGRAM, "child-bench"], input=bench([b"one"]), capture_output=True, cwd="room")
if (ran.returncode, ran.stdout) != (3, b"") or not ran.stderr.startswith(b"vunit_run: fault of report\nvunit_run: r/s/t: "):
    fail("results that can't be written", f"{ran}")
project("room", {})
with open("/dev/full", "w") as full:
    ran = subprocess.run([PROGRAM, "child-bench"], input=bench([b"one"]), stdout=full, stderr=subprocess.PIPE, cwd="room")
if ran.returncode != 3 or not ran.stderr.startswith(b"vunit_run: fault of out\n") or not os.path.exists("room/r/s/t"):
    fail("an output that is full", f"{ran}")
end()
END
