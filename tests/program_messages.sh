#!/bin/sh
# The lines on standard error during a run and after it: one for each failure as it comes, the names of failed tests, counts at
# a fault, warnings, and causes with their places. Standard output and the status are as without them.
. "$TOP/tests/support/needs.sh"
needs python3
PYTHONPATH=$TOP/tests/support exec python3 -B - <<'END'
import json, os, re, signal, subprocess, sys, threading, time

from store_reader import FORM, side_of, spelled
from trial import PROGRAM, end, fail, package, project, toml, write

SIMULATOR = [sys.executable, "-B", os.path.join(os.environ["TOP"], "tests", "support", "simulator.py")]
COMPILER = ["sh", "-c", "cat >/dev/null"]
ANALYSED = "vunit_run: warning: nothing is analysed: the compiler is the built-in one, which only looks for design units\n"
SIMULATED = "vunit_run: warning: nothing is simulated: the simulator is the built-in one, which only reads comments\n"
NO_TEST = "vunit_run: warning: no test was run\n"
NAMES = "a pattern is of the whole name LIBRARY.BENCH.CASE\n"


# What a run of over 10 seconds says, as on a loaded machine.
SUMMARY = re.compile(rb"vunit_run: \[\d+/\d+\] \d+ passed, \d+ failed\n")


def bench(*cases):
    calls = "".join(f'x{at} <= run("{case}");\n' for at, case in enumerate(cases))
    return f"entity t is generic (runner_cfg : string); end;\narchitecture a of t is begin\n{calls}end;\n"


def planned(plan):
    """The environment of a run whose simulators do this."""
    with open("plan", "w") as file:
        json.dump(plan, file)
    return dict(os.environ, PLAN=os.path.abspath("plan"))


def told(name, folder, wanted, *words, status=None, out=None, env=None, first=""):
    """Runs the program, and compares standard error, in which times are written as T."""
    ran = subprocess.run([PROGRAM, *words], cwd=folder, env=env, stdin=subprocess.DEVNULL, capture_output=True, timeout=120)
    error = SUMMARY.sub(b"", re.sub(rb"\(\d+\.\d s\)", b"(T)", ran.stderr)).decode("latin-1")
    if error != wanted:
        fail(name, f"standard error is {error!r}\nand not {wanted!r}")
    if status is not None and ran.returncode != status:
        fail(name, f"the status is {ran.returncode}, and not {status}")
    if out is not None and ran.stdout != out.encode():
        fail(name, f"standard output is {ran.stdout}, and not {out}")


def tools(*more):
    return f"compiler = {json.dumps(COMPILER)}\nsimulator = {json.dumps(SIMULATOR)}\n" + "".join(more)


FAILED = {"results": None}
one_library = toml({"lib": ["t.vhd"]})

# Failures as they come: a run that is killed has named each test that failed before.
cases = [f"c{at}" for at in range(8)]
project("killed", {"vunit.toml": tools() + one_library, "t.vhd": bench(*cases)})
plan = {f"lib.t.{case}": dict(FAILED, makes=f"made_{case}") if at < 4 else {"makes": f"made_{case}", "sleeps": 60}
        for at, case in enumerate(cases)}
runner = subprocess.Popen([PROGRAM], cwd="killed", env=planned(plan), stdin=subprocess.DEVNULL, stdout=subprocess.PIPE,
                          stderr=subprocess.PIPE, start_new_session=True)
until = time.monotonic() + 60
while not os.path.exists("killed/made_c4") and time.monotonic() < until:
    time.sleep(0.005)
os.killpg(runner.pid, signal.SIGKILL)
said, error = runner.communicate(timeout=60)
wanted = "".join(f"vunit_run: fail lib.t.c{at} (T): vunit_out/tests/lib.t.c{at}\n" for at in range(4))
error = SUMMARY.sub(b"", re.sub(rb"\(\d+\.\d s\)", b"(T)", error)).decode()
if (runner.returncode, said, error) != (-9, b"", wanted):
    fail("a run that is killed", f"it is {runner.returncode, said, error}")

# The end of a run: its failed tests, and nothing where all passed. -q hides none.
failed = "vunit_run: fail lib.t.a (T): vunit_out/tests/lib.t.a\nvunit_run: fail lib.t.d (T): vunit_out/tests/lib.t.d\n"
names = "vunit_run: failed tests: 2\nvunit_run: failed lib.t.a\nvunit_run: failed lib.t.d\n"
project("tests", {"vunit.toml": tools() + one_library, "t.vhd": bench("a", "b", "d")})
plan = planned({"lib.t.a": FAILED, "lib.t.d": FAILED})
told("failed tests", "tests", failed + names, status=1, env=plan)
told("failed tests, quietly", "tests", failed + names, "-q", status=1, env=plan)
told("failed tests, and exit 0", "tests", failed + names, "--exit-0", status=0, env=plan)
told("all passed", "tests", "", status=0, env=planned({}))

# A summary once 10 seconds have passed, if a child has ended before, and not with -q.
project("slow", {"vunit.toml": tools() + one_library, "t.vhd": bench("a", "b", "d")})
project("quiet", {"vunit.toml": tools() + one_library, "t.vhd": bench("a", "b", "d")})
env = dict(planned({f"lib.t.{case}": {"sleeps": seconds} for case, seconds in (("a", 3), ("b", 9), ("d", 0))}))
both = [subprocess.Popen([PROGRAM, *words], cwd=folder, env=env, stdin=subprocess.DEVNULL, stdout=subprocess.PIPE, stderr=subprocess.PIPE)
        for folder, words in (("slow", []), ("quiet", ["-q"]))]
(_, error), (_, quiet) = [child.communicate(timeout=200) for child in both]
if [child.returncode for child in both] != [0, 0] or quiet or not re.match(rb"vunit_run: \[[1-3]/4\] [1-3] passed, 0 failed\n", error):
    fail("a summary", f"it is {error, quiet}")

# How a child ended, where nothing else says it.
for ended, cause in ({"signal": 9}, "ended by signal 9"), ({"signal": 11}, "ended by signal 11"), ({"code": 127}, "could not be run, code 127"), \
        ({"code": 126}, "could not be run, code 126"), ({"code": 2}, None):
    line = "vunit_run: fail lib.t.b (T): vunit_out/tests/lib.t.b" + (f": {cause}" if cause else "") + "\n"
    told(f"a simulator, {ended}", "tests", line + "vunit_run: failed tests: 1\nvunit_run: failed lib.t.b\n", status=1,
         env=planned({"lib.t.b": dict(FAILED, **ended)}))
for script, cause in ("kill -9 $$", ": ended by signal 9"), ("exit 127", ": could not be run, code 127"), ("exit 1", ""):
    compiler = json.dumps(["sh", "-c", "cat >/dev/null; " + script])
    project("files", {"vunit.toml": f"compiler = {compiler}\n" + toml({"lib": ["a.vhd"]}), "a.vhd": package("a")})
    told(f"a compiler, {script}", "files", f"vunit_run: fail lib, a.vhd (T){cause}\n", "--compile", status=1,
         out="Compiling into lib: a.vhd failed\nCompile failed\n")

# A simulator that ends before its first test leaves all of them skipped: that is a failure of the bench.
together = "-- vunit: run_all_in_same_sim\n" + bench("a", "b")
project("skipped", {"vunit.toml": tools() + one_library, "t.vhd": together})
for ended, cause in ({"code": 1}, ""), ({"signal": 6}, ": ended by signal 6"):
    told(f"all are skipped, {ended}", "skipped", f"vunit_run: fail lib.t (T): vunit_out/tests/lib.t{cause}\n", status=1, env=planned({"lib.t": dict(results="", **ended)}))
project("skipped", {"vunit.toml": tools() + one_library, "t.vhd": bench("a", "b")})
told("one of two is skipped", "skipped", "vunit_run: fail lib.t.b (T): vunit_out/tests/lib.t.b\n", status=1, env=planned({"lib.t.b": {"results": "", "code": 1}}))

# A fault: the case that it is of, and what had become of the others.
plan = planned({"lib.t.a": FAILED, "lib.t.b": {"code": 75}})
told("a lost test", "tests", "vunit_run: fail lib.t.a (T): vunit_out/tests/lib.t.a\nvunit_run: fault of child\n"
     "vunit_run: lib.t.b: end: its code, 75, says that it has no answer\nvunit_run: tests passed: 0, failed: 1, never started: 1\n", status=3, out="", env=plan)
plan = planned({"lib.t.d": {"code": 75}})
told("the last is lost", "tests", "vunit_run: fault of child\nvunit_run: lib.t.d: end: its code, 75, says that it has no answer\n"
     "vunit_run: tests passed: 2, failed: 0, never started: 0\n", status=3, out="", env=plan)

# What a child says that takes no request: a request of over 64 KB doesn't fit in a pipe.
saying = json.dumps(["sh", "-c", "echo no licence; echo 'ask\033 again'; exit 3"])
project("said", {"vunit.toml": f"compiler = {saying}\n" + toml({"lib": ["a.vhd"]}), "a.vhd": package("a") + "-- x\n" * 100_000})
told("what a child says", "said", "vunit_run: fault of start\n"
     "vunit_run: sh -c echo no licence; echo 'ask? again'; exit 3: write: Broken pipe (os error 32)\n"
     "vunit_run: it said: no licence\nvunit_run: it said: ask? again\n", "--compile", status=3, out="")

# A name that is too long for a folder: 255 bytes are not, 256 are. Each byte but letters, digits, - _ . counts as three.
short, long, wide = "s" * 249, "l" * 250, "%" * 84
project("long", {"vunit.toml": tools() + one_library, "t.vhd": bench(short, long, wide)})
limit = "a folder's name has at most 255 bytes, and this has"
ran = subprocess.run([PROGRAM], cwd="long", env=planned({}), stdin=subprocess.DEVNULL, capture_output=True, timeout=120)
lines = SUMMARY.sub(b"", ran.stderr).decode().splitlines()
wanted = [f"vunit_run: {limit} 256: lib.t.{long}", f"vunit_run: {limit} 258: lib.t." + "=25" * 84, "vunit_run: fault of start"]
if ran.returncode != 3 or lines[:3] != wanted or lines[4:] != ["vunit_run: tests passed: 1, failed: 0, never started: 2"]:
    fail("long names", f"it is {ran.returncode, lines}")

# Warnings: tools that are built in, and a run without a test.
project("own", {"vunit.toml": one_library, "t.vhd": bench("a")})
told("built-in tools", "own", ANALYSED + SIMULATED, status=0)
told("the built-in compiler", "own", ANALYSED, "--compile", status=0, out="Re-compile not needed\n")
told("a list", "own", "", "-l", status=0)
told("files", "own", "", "-f", status=0)
told("no match", "own", ANALYSED + "vunit_run: warning: no test matches tb_proc: " + NAMES + NO_TEST, "tb_proc", status=0,
     out="Re-compile not needed\nNo tests were run!\n")
told("one of two matches", "own", ANALYSED + "vunit_run: warning: no test matches u*: " + NAMES, "--compile", "-m", "lib.*", "u*", status=0)
told("no match of a list", "own", "vunit_run: warning: no test matches x: " + NAMES, "-l", "x", status=0)
told("no match of an export", "own", "vunit_run: warning: no test matches ?: " + NAMES, "--export-json", "out.json", "\x01", status=0)
project("csv", {"vunit.csv": "lib,a.vhd\n", "a.vhd": package("a")})
told("a list of files", "csv", ANALYSED + NO_TEST, status=0)
project("named", {"vunit.toml": tools() + one_library, "t.vhd": bench("a")})
told("named tools", "named", "", status=0, env=planned({}))

# Keys that aren't known, with their places: a line, and a column in bytes, both from 1.
keys = '''simulatr = ["x"]
"users_depend_on_bodys" = true
[[library]]
  name = "lib"
files = ["t.vhd"]; optoins = []
'''.replace("; ", "\n  ") + '''options = ["a # b", """
library = 1
""", 'c']   # colour = 1
[tool.x]
name = 1
[[depends]]
library = "lib"
path = "t.vhd"
on_library = "lib"
on_path = "t.vhd"
hue = { a = 1, b = [ { c = 2 } ] }
'''
known = ["vunit.toml:1:1: unknown key simulatr (did you mean simulator?)",
         "vunit.toml:2:1: unknown key users_depend_on_bodys (did you mean users_depend_on_bodies?)",
         "vunit.toml:6:3: unknown key optoins (did you mean options?)", "vunit.toml:10:2: unknown key tool", "vunit.toml:17:1: unknown key hue"]
project("keys", {"vunit.toml": keys, "t.vhd": package("t")})
told("unknown keys", "keys", "".join(f"vunit_run: warning: {line}\n" for line in known), "-f", status=0)
inner = 'library = [{ name = "lib", files = ["t.vhd"], nmae = 1 }, { name = "b",\n  file = 2, files = ["t.vhd"] }]\n'
project("inner", {"vunit.toml": inner, "t.vhd": package("t")})
told("unknown keys of inner tables", "inner", "vunit_run: warning: vunit.toml:1:47: unknown key nmae (did you mean name?)\n"
     "vunit_run: warning: vunit.toml:2:3: unknown key file (did you mean files?)\n", "-f", status=0)

# Folders behind links.
project("linked", {"vunit.toml": tools() + toml({"lib": ["src/**/*.vhd"]}), "src/a.vhd": package("a"), "b/c/d.vhd": package("d"), "e/f.txt": "x"})
os.symlink("../b", "linked/src/there")
os.symlink("../e", "linked/src/other")
told("a folder behind a link", "linked", "vunit_run: warning: src/there/c/d.vhd lies behind a link to a folder, which no pattern enters\n", "--compile", status=0)
write("linked", {"vunit.toml": tools() + toml({"lib": ["src/*.vhd"]})})
told("a link that no pattern leads to", "linked", "", "--compile", status=0)

# Why a pattern of files matches nothing.
for pattern, why in (("/a.vhd", "an absolute path matches nothing: paths are below the present folder"),
                     ("../a.vhd", "a part .. matches nothing: paths are below the present folder"),
                     ("./a.vhd", "a part . matches nothing: leave it out"),
                     ("src/there/*.vhd", "src/there is a link to a folder, which no pattern enters"), ("none.vhd", None)):
    write("linked", {"vunit.toml": tools() + toml({"lib": [pattern]})})
    told(f"the pattern {pattern}", "linked", f"vunit_run: {pattern}: {why}\n" if why else "", "--compile", status=1, out=f"vunit_run: nothing matches {pattern}\n")

# A project file with a TOML fault, and values that are wrong.
for text, place in (('a = 1\nb = [1\nc = 2\n', "3:1: missing comma between array elements, expected `,` or `]`"),
                    ('[[library]\n', "1:11: unclosed array table, expected `]]`"), ('a = 1\na = 2\n', "2:1: duplicate key"),
                    ('  x = "a\n', None)):
    project("bad", {"vunit.toml": text})
    ran = subprocess.run([PROGRAM], cwd="bad", stdin=subprocess.DEVNULL, capture_output=True, timeout=60)
    error = ran.stderr.decode()
    if ran.stdout != b"vunit_run: vunit.toml isn't TOML\n" or (error != f"vunit.toml:{place}\n" if place else not error.startswith("vunit.toml:1:")):
        fail(f"no TOML, {text}", f"it is {ran.stdout, error}")
for text, key, line in (('compiler = 5 # x\n[[library]]\nname = "l"\nfiles = ["a.vhd"]\n', "compiler", "1:12: wrong value of compiler: 5 # x"),
                        ('[[library]]\nname = 5\nfiles = ["a.vhd"]\n', "library.name", "2:8: wrong value of library.name: 5"),
                        ('[[library]]\nname = "l"\nfiles = "a.vhd"\n', "library.files", '3:9: wrong value of library.files: "a.vhd"')):
    project("bad", {"vunit.toml": text, "a.vhd": package("a")})
    told(f"a wrong value of {key}", "bad", f"vunit.toml:{line}\n", status=1, out=f"vunit_run: vunit.toml: wrong value of {key}\n")

# Of a key of several tables the value is shown that is wrong, not the first one.
libraries = '[[library]]\nname = "l"\nfiles = ["a.vhd"]\n\n[[library]]\nname = "m"\nfiles = ["a.vhd"]\noptions = ["x"]\n'
for text, key, line in ((libraries.replace('"m"', '"1m"'), "library.name", '6:8: wrong value of library.name: "1m"'),
                        (libraries.replace('["x"]', '["x", 7]'), "library.options", '8:11: wrong value of library.options: ["x", 7]'),
                        (libraries[:-1].replace('"m"\nfiles = ["a.vhd"]', '"m"\nfiles = 5') + "\n", "library.files", "7:9: wrong value of library.files: 5"),
                        ('library = [{ name = "l", files = ["a.vhd"] }, { name = "m", files = true }]\n', "library.files", "1:69: wrong value of library.files: true }]"),
                        (libraries + '[[depends]]\nlibrary = "l"\npath = "a.vhd"\non_library = "m"\non_path = "a.vhd"\n'
                         '[[depends]]\nlibrary = "l"\npath = "a.vhd"\non_library = "m"\non_path = "../a.vhd"\n', "depends.on_path",
                         '18:11: wrong value of depends.on_path: "../a.vhd"')):
    project("bad", {"vunit.toml": text, "a.vhd": package("a")})
    told(f"a wrong value of {key} in a second table", "bad", f"vunit.toml:{line}\n", status=1, out=f"vunit_run: vunit.toml: wrong value of {key}\n")

# A line of a place has at most 4,096 bytes, with its end, and is cut between two letters.
for letters in 1_000, 4_000, 5_000:
    name = "x" * letters
    project("wide", {"vunit.toml": tools() + toml({"lib": ["a.vhd"]}), "a.vhd": f"use work.{name}.all;\npackage a is end;\n"})
    line = f"a.vhd:1:5: no unit lib.{name}"
    line = line[:4092] + " .." if len(line) > 4095 else line
    told(f"a unit of {letters} letters", "wide", line + "\n", status=1)

# Places in sources: of each missing unit, of both declarations, and of each use of a cycle.
sources = {"vunit.toml": tools() + toml({"lib": ["*.vhd"]}), "a.vhd": "use work.p1.all;\npackage a is\nend;\nuse work.p2.all;\npackage a2 is end;\n",
           "b.vhd": "library lib;\nuse lib.p3.all, lib.a.all;\nentity b is end;\narchitecture x of b is begin\n  u : entity work.Nothere;\n  v : entity Work.b;\nend;\n"}
project("sources", sources)
told("missing units", "sources", "a.vhd:1:5: no unit lib.p1\na.vhd:4:5: no unit lib.p2\nb.vhd:2:5: no unit lib.p3\nb.vhd:5:14: no unit lib.nothere\n", status=1,
     out="vunit_run: lib, a.vhd: no unit lib.p1\n")
write("sources", {"a.vhd": "-- 1\n  package Twice is\nend;\n", "b.vhd": "package twice is end;\n"})
told("a duplicate", "sources", "a.vhd:2:11: lib.twice is declared here\nb.vhd:1:9: lib.twice is declared here\n", status=1)
write("sources", {"a.vhd": "package twice is\nend;\npackage twice is end;\n", "b.vhd": "package b is end;\n"})
told("a duplicate in one file", "sources", "a.vhd:1:9: lib.twice is declared here\na.vhd:3:9: lib.twice is declared here\n", status=1)
write("sources", {"a.vhd": "-- 1\nuse work.b.all;\npackage a is\nend;\n", "b.vhd": "library lib;\nuse\n  lib.a.all;\npackage b is end;\n"})
told("a cycle", "sources", "a.vhd:2:5: use of lib, b.vhd\nb.vhd:3:3: use of lib, a.vhd\n", status=1, out="vunit_run: cycle\n  lib, a.vhd\n  lib, b.vhd\n")

# Invalid command lines.
HELP = "vunit_run: --help says what each option does\n"
for words, line in ((["--compil"], "wrong word --compil (did you mean --compile?)"), (["-lz"], "wrong word -lz"),
                    (["a", "b", "--fail_fast", "c", "-x"], "wrong word --fail_fast (did you mean --fail-fast?)"),
                    (["-p", "0"], "wrong value of -p, or it stands twice: 0"), (["-x"], "there is no value for -x"),
                    (["--generate"], "there is no value for --generate"), (["--clean", "--list", "--clean"], "--clean stands twice"),
                    (["--\x1b[2J"], "wrong word --?[2J")):
    told(f"the words {words}", "own", f"vunit_run: {line}\n{HELP}", *words, status=2)
ran = subprocess.run([PROGRAM, "--help"], cwd="own", stdin=subprocess.DEVNULL, capture_output=True, timeout=60)
if ran.returncode != 2 or b"--fail-fast" not in ran.stderr or not ran.stdout.startswith(b"usage: "):
    fail("help", f"it is {ran}")

# Records that can't be read. Of four records, all texts are new, so that none needs another one.
def record(at):
    """A payload of form 3 with the record of a file."""
    text = lambda words: b"\1" + spelled(words)
    name = spelled(b"lib") + spelled(b"%c.vhd" % b"abcde"[at])
    return b"\1" + name + b"\1\0\0\0" + spelled(b"cc") + text(b"package p%d is end;" % at) + b"\0\0\0\0" + text(b"made of %d" % at)


def changed(side, *changes):
    """A side with some bytes in the place of others."""
    side = bytearray(side)
    for at, value in changes:
        side[at] = value
    return bytes(side)


def with_store(name, counts, a, b, *words, out=None, status=0):
    """Runs over a store of these sides, of which so many records can't be read."""
    write("records", {"vunit_out/store_a": a, "vunit_out/store_b": b})
    sides = ", ".join(f"{count} of vunit_out/store_{side}" for count, side in zip(counts, "ab") if count)
    line = f"vunit_run: warning: records that cannot be read: {sides}; --clean builds anew\n" if sides else ""
    told(name, "records", line, *(words or ("--compile",)), status=status, out=out)


project("records", {"vunit.toml": tools() + toml({"lib": ["a.vhd"]}), "a.vhd": package("a")})
four = [record(at) for at in range(4)]
side, newer = side_of(FORM, 1, four), side_of(FORM, 2, four)
gates = [18 + sum(5 + len(payload) for payload in four[:at]) for at in range(5)]
for place, store in ("a", lambda bytes: (bytes, b"")), ("b", lambda bytes: (side_of(FORM, 1, four[:2]), bytes)):
    whole = side if place == "a" else newer
    count = lambda number: (number, 0) if place == "a" else (0, number)
    about = f"side {place}: "
    with_store(about + "a whole store", count(0), *store(whole))
    with_store(about + "an empty store", count(0), *store(side_of(FORM, 2, [])))
    # (the second record does not count any more, and the others are found behind it)
    with_store(about + "another kind of payload", count(1), *store(changed(whole, (gates[1] + 5, 3))))
    with_store(about + "no path", count(1), *store(changed(whole, (gates[1] + 13, 0))))
    with_store(about + "a text by a number that there isn't", count(1), *store(changed(whole, (gates[1] + 32, 0))))
    with_store(about + "two damaged ones", count(2), *store(changed(whole, (gates[1] + 5, 9), (gates[2] + 5, 9))))
    with_store(about + "the last one", count(1), *store(changed(whole, (gates[3] + 5, 7))))
    # (nobody comes to the third and the fourth)
    with_store(about + "one byte longer", count(3), *store(changed(whole, (gates[1] + 1, len(four[1]) + 1))))
    with_store(about + "longer than the side", count(3), *store(changed(whole, (gates[1] + 4, 16))))
    for gate in 0, 37:
        with_store(about + f"a gate of {gate} in the middle", count(2), *store(changed(whole, (gates[2], gate))))
        with_store(about + f"the last gate is {gate}, as a stop in a commit leaves it", count(0), *store(changed(whole, (gates[3], gate))))
    with_store(about + "cut inside the third", count(1), *store(whole[:gates[2] + 20]))
    with_store(about + "cut after a gate", count(1), *store(whole[:gates[2] + 1]))
    with_store(about + "cut before the last gate", count(1), *store(whole[:-1]))
    with_store(about + "a letter of the mark", count(4), *store(changed(whole, (3, 0x57))))
    with_store(about + "another form", count(4), *store(changed(whole, (9, 7))))
    # (the bytes of a text say another text, and that is one)
    with_store(about + "a letter of a text", count(0), *store(changed(whole, (gates[1] + 45, 0x41))))
    with_store(about + "not live", count(0), *store(changed(whole, (0, 0))))
    # What a stop in the commit of a fifth record may leave, and one in a compaction.
    fifth = record(4)
    ended = whole[:-1] + b"\0" + len(fifth).to_bytes(4, "little") + fifth + b"\0"
    for left in [*range(len(whole), len(ended), 7), len(ended)]:
        with_store(about + f"a commit that stopped after {left} bytes", count(0), *store(ended[:left]))
        with_store(about + f"a commit of which {left} bytes came", count(0), *store(ended[:left] + b"\1" * (len(ended) - left - 1) + b"\0"))
    short = b"\1\2\0\0\0" + b"\0\0"
    with_store(about + "a payload that is no record before the rest of a longer one", count(1), *store(whole[:-1] + short + b"\0" + fifth[3:] + b"\0"))
for left in 1, 18, 19, 40, len(newer):
    with_store(f"a compaction that stopped after {left} bytes", (0, 0), side, b"\0" + newer[1:left])
with_store("a damaged side that is older than the one that counts", (0, 0), changed(side, (gates[1] + 5, 3)), newer)
with_store("a damaged mark of the older side", (0, 0), changed(side, (3, 0x57)), newer)
with_store("both sides", (1, 4), changed(side, (gates[1] + 5, 3)), changed(newer, (3, 0x57)))
with_store("a form of before", (0, 0), side_of(1, 1, [b"x", b"y"]), b"")
with_store("no store of the program", (0, 0), b"any text that somebody keeps here", b"\1\1\1")

# The line isn't written where no record is wanted, nor by a run that empties the store, nor after it. It is the last of all.
damaged = changed(side, (gates[1] + 5, 3))
for words in ("-l",), ("-f",), ("--clean", "--compile"):
    with_store(f"a damaged store, {words}", (0, 0), damaged, b"", *words)
told("after it was emptied", "records", "", "--compile", status=0, out="Re-compile not needed\n")
unread = "vunit_run: warning: records that cannot be read: 1 of vunit_out/store_a; --clean builds anew\n"
project("records", {"vunit.toml": "x = 1\n" + toml({"lib": ["t.vhd"]}), "t.vhd": bench("a"), "vunit_out/store_a": damaged})
told("the last line", "records", "vunit_run: warning: vunit.toml:1:1: unknown key x\n" + ANALYSED + SIMULATED + unread, status=0)
told("again, as long as it is damaged", "records", "vunit_run: warning: vunit.toml:1:1: unknown key x\n" + ANALYSED + SIMULATED + unread, status=0)
project("records", {"vunit.toml": tools() + one_library, "t.vhd": bench("a"), "vunit_out/store_a": damaged})
told("the last line of a run that ends at a fault", "records", "vunit_run: fault of child\nvunit_run: lib.t.a: end: its code, 75, says that it has no answer\n"
     "vunit_run: tests passed: 0, failed: 0, never started: 0\n" + unread, status=3, env=planned({"lib.t.a": {"code": 75}}))
many = subprocess.run([PROGRAM, *["x"] * 100_000, "--nothing"], cwd="own", stdin=subprocess.DEVNULL, capture_output=True, timeout=120)
if many.returncode != 2 or many.stderr != b"vunit_run: wrong word --nothing\n" + HELP.encode():
    fail("many words", f"it is {many.returncode, many.stderr[:200]}")
end()
