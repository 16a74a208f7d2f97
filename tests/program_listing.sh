#!/bin/sh
# The tests of a project are listed by their full names, filtered by patterns; a bench that is wrong is named before
# anything is put; and neither the store nor a compiler is touched. Hostile benches take no long time.
. "$TOP/tests/support/needs.sh"
needs python3
exec python3 - "$VUNIT_RUN" <<'EOF'
import os, shutil, subprocess, sys, time

program = sys.argv[1]


def run(words, files):
    shutil.rmtree("project", ignore_errors=True)
    for path, text in files.items():
        path = os.path.join("project", path)
        os.makedirs(os.path.dirname(path), exist_ok=True)
        with open(path, "wb") as file:
            file.write(text)
    ran = subprocess.run([program, *words], cwd="project", stdin=subprocess.DEVNULL, capture_output=True)
    if os.path.exists("project/vunit_out"):
        sys.exit(f"{words} opened the store")
    return ran.returncode, ran.stdout


def check(status, text, words, files):
    if (found := run(words, files)) != (status, text):
        found = found[0], found[1][:2000]
        sys.exit(f"{words} over {[(path, text[:300]) for path, text in files.items()]}: it is {found} and not {status, text[:2000]}")


def listed(*names):
    return b"".join(name + b"\n" for name in names) + b"Listed %d tests\n" % len(names)


def bench(name, *cases):
    runs = b"".join(b'if run("%s") then end if;\n' % case for case in cases)
    return (b"entity %s is generic (runner_cfg : string); end;\n" % name
            + b"architecture a of %s is begin process begin\n%send process; end;\n" % (name, runs))


ONE = {"vunit.csv": b"tb_lib,tb/tb_x.vhd\n", "tb/tb_x.vhd": bench(b"tb_x", b"a", b"b,c")}
A, B = b"tb_lib.tb_x.a", b"tb_lib.tb_x.b,c"
for patterns, names in [
    ([], [A, B]), (["*"], [A, B]), (["*.b*"], [B]), (["["], []), (["[!a]*"], [A, B]), (["*.a", "*,c"], [A, B]),
    (["tb_lib.tb_x.a"], [A]), (["tb_lib.tb_x"], []), (["TB_LIB.*"], []), (["?b_lib.tb_x.?"], [A]), (["*.c", "*,[a-d]"], [B]),
    ([""], []),
]:
    check(0, listed(*names), ["-l", *patterns], ONE)
    check(0, listed(*names), ["--list", "--files", "--compile", *patterns], ONE)

# Benches are listed in project order, also where another file comes first in compile order.
TWO = {
    "vunit.toml": b'[[library]]\nname = "lib"\nfiles = ["z.vhd", "a.vhd"]\n',
    "z.vhd": b"use work.p.all;\n" + bench(b"tb_z", b"z"),
    "a.vhd": b"package p is end;\n" + bench(b"tb_a", b"one", b'a ""b""') + bench(b"tb_b"),
}
check(0, listed(b"lib.tb_z.z", b"lib.tb_a.one", b'lib.tb_a.a "b"', b"lib.tb_b.all"), ["-l"], TWO)
check(0, b"lib, a.vhd\nlib, z.vhd\nListed 2 files\n", ["-f"], TWO)

# A fault of a bench is named, the first one in project and unit order.
PLAIN = b"entity t is generic (runner_cfg : string); end;\n"
ARCHITECTURE = b"architecture %s of t is begin end;\n"
for text, vhdl in [
    (b"bench lib.t has two architectures", PLAIN + ARCHITECTURE % b"a" + ARCHITECTURE % b"b"),
    (b"bench lib.t has no architecture", PLAIN),
    (b"test lib.t.x stands twice", bench(b"t", b"x", b"y", b"x")),
    (b"bench lib.t has a bad test name", bench(b"t", b"x", b"", b"x")),
    (b"bench lib.t has a bad test name", bench(b"t", b"x\xff")),
    (b"bench lib.t has no architecture", bench(b"s", b"x") + PLAIN + bench(b"u", b"x", b"x")),
]:
    files = {"vunit.csv": b"lib,t.vhd\n", "t.vhd": vhdl}
    check(1, b"vunit_run: " + text + b"\n", ["-l"], files)
    check(1, b"vunit_run: " + text + b"\n", ["-l", "no such test"], files)
    check(1, b"vunit_run: " + text + b"\n", ["--export-json", "e.json"], files)
    if os.path.exists("project/e.json"):
        sys.exit("a report of refused benches is written")
    check(0, b"lib, t.vhd\nListed 1 files\n", ["-f"], files)

# Such a bench is compiled nevertheless.
shutil.rmtree("project")
os.mkdir("project")
for path, text in ("vunit.csv", b"lib,t.vhd\n"), ("t.vhd", PLAIN + ARCHITECTURE % b"a" + ARCHITECTURE % b"b"):
    with open(os.path.join("project", path), "wb") as file:
        file.write(text)
ran = subprocess.run([program, "--compile"], cwd="project", stdin=subprocess.DEVNULL, capture_output=True)
if (ran.returncode, ran.stdout) != (0, b"Compiling into lib: t.vhd passed\nCompile passed\n"):
    sys.exit(f"a bench with two architectures is compiled so: {ran}")

# Many cases, one too many, and many calls of one name; many patterns over many cases.
many = [b"%d" % at for at in range(65537)]
files = {"vunit.csv": b"lib,t.vhd\n"}
for status, text, words, vhdl in [
    (0, listed(*(b"lib.t." + name for name in many[:65536])), ["-l"], bench(b"t", *many[:65536])),
    (5, b"vunit_run: over limit: tests 65536\n", ["-l"], bench(b"t", *many)),
    (1, b"vunit_run: test lib.t.x stands twice\n", ["-l"], PLAIN + b"architecture a of t is begin\n" + b'run("x");' * 400000 + b"end;\n"),
    (0, listed(*(b"lib.t." + name for name in many[:8000])), ["-l", *("lib.t." + name.decode() for name in many[:8000])], bench(b"t", *many[:65536])),
    (0, listed(), ["-l", "*a*b*c*d*"], bench(b"t", b"abcabc" * 300000)),
]:
    begun = time.monotonic()
    check(status, text, words, {**files, "t.vhd": vhdl})
    if time.monotonic() - begun > 20:
        sys.exit(f"{words[:3]} takes {time.monotonic() - begun:.0f} s over {len(vhdl)} bytes")
EOF
