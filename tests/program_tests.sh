#!/bin/sh
# Runs of tests by the real program: which are started, in which order and with what. Then the result of each end and of each
# text of results, the printed and written bytes, and what each fault of something outside leaves.
. "$TOP/tests/support/needs.sh"
needs python3
PYTHONPATH=$TOP/tests/support exec python3 -B - <<'END'
import json, os, shutil, subprocess, sys
import xml.etree.ElementTree as xml

from simulator import read_bench
from trial import PROGRAM, end, expect, fail, package, project, run, toml, write
from realistic_project import FILES as REALISTIC

SIMULATOR = [sys.executable, "-B", os.path.join(os.environ["TOP"], "tests", "support", "simulator.py")]


def bench(name, cases, more="", head=""):
    calls = "".join(f'if run("{case}") then null; end if;\n' for case in cases)
    return f"{head}entity {name} is generic (runner_cfg : string); end;\narchitecture a of {name} is begin\np : process begin\n{calls}{more}end process;\nend;\n"


SAME = "-- vunit: run_all_in_same_sim\n"


def listing(libraries, simulator=SIMULATOR):
    return toml(libraries, more=f"simulator = {json.dumps(simulator)}\n" if simulator else "")


def planned(plan, requests="requests"):
    """The environment of a run whose simulators do what a plan says, and keep their requests in a folder made anew."""
    shutil.rmtree(requests, ignore_errors=True)
    os.makedirs(requests)
    with open("plan", "w") as file:
        json.dump(plan, file)
    return dict(os.environ, REQUESTS=os.path.abspath(requests), PLAN=os.path.abspath("plan"))


def started(requests="requests"):
    """The requests of the simulators, in the order of their starts."""
    found = []
    for name in sorted(os.listdir(requests)):
        with open(os.path.join(requests, name), "rb") as file:
            found.append(read_bench(file.read()))
    return found


def summary(passes, fails, skips):
    total = passes + fails + skips
    return f"==== Summary\npass {passes} of {total}\nfail {fails} of {total}\nskip {skips} of {total}\n" + ("Some failed!\n" if fails + skips else "All passed!\n")


# Nothing to build, and nothing to run.
project("two", {"vunit.csv": ""})
expect("no files", "two", 0, "Re-compile not needed\nNo tests were run!\n")
expect("no files, with a report", "two", 0, "Re-compile not needed\nNo tests were run!\n", "-x", "out.xml")
with open("two/out.xml") as file:
    if file.read() != '<?xml version="1.0" encoding="utf-8"?>\n<testsuite name="testsuite" tests="0" failures="0" skipped="0" errors="0">\n</testsuite>\n':
        fail("no files, with a report", "the report isn't that of no case")

# A refusal goes before tests, whatever --exit-0 says: no test is started, and no report is written.
uses = "use work.{}.all;\n"
files = {"vunit.csv": "lib,v.vhd\nlib,t.vhd\nlib,p.vhd\n", "p.vhd": package("p") + "-- child: refuse bad p\n", "v.vhd": package("v"),
         "t.vhd": bench("t", ["one"])}
project("refused", files)
for words in (["-x", "out.xml"], ["-k", "-x", "out.xml", "--exit-0"], ["-p", "8", "--exit-0", "-k", "-x", "out.xml"]):
    shutil.rmtree("refused/vunit_out", ignore_errors=True)
    expect(f"a refusal with {words}", "refused", 1,
           "Compiling into lib: v.vhd passed\nCompiling into lib: t.vhd passed\nCompiling into lib: p.vhd failed\nbad p\nCompile failed\n", *words)
    if os.path.exists("refused/out.xml") or os.path.exists("refused/vunit_out/tests"):
        fail(f"a refusal with {words}", "there is a report, or a test was started")

# The configuration of a case, by which patterns select cases, and what a request holds.
project("cfg", {"vunit.toml": listing({"tb_lib": ["tb/*.vhd"]}), "tb/tb_x.vhd": bench("tb_x", ["a", "b,c"])})
env = planned({})
for pattern, names in (("*.b*", ["b,c"]), ("[", []), ("[!a]*", ["a", "b,c"])):
    text = run("cfg", "-l", pattern)[1].decode()
    wanted = "".join(f"tb_lib.tb_x.{name}\n" for name in names) + f"Listed {len(names)} tests\n"
    if text != wanted:
        fail(f"the pattern {pattern}", f"it lists {text}")
env = planned({})
expect("one of two cases", "cfg", 0, "Compiling into tb_lib: tb/tb_x.vhd passed\nCompile passed\npass tb_lib.tb_x.b,c\n" + summary(1, 0, 0), "*.b*", env=env)
artefact = b"unit entity tb_x\nunit architecture a of tb_x\n"
wanted = [(b"tb_lib", b"tb_x", b"a", [b"b,c"],
           b"active python runner : true,enabled_test_cases : b,,,,c,output path : vunit_out/tests/tb_lib.tb_x.b=2cc/,tb path : tb/,use_color : false",
           b"vunit_out/tests/tb_lib.tb_x.b=2cc/vunit_results", [(b"tb_lib", b"tb/tb_x.vhd", artefact)])]
if started() != wanted:
    fail("one of two cases", f"the request is {started()}")
env = planned({})
expect("patterns that match nothing", "cfg", 0, "Re-compile not needed\nNo tests were run!\n", "[", env=env)
if started():
    fail("patterns that match nothing", "a test was started")

# One simulation for all cases, whose last case isn't done.
project("same", {"vunit.toml": listing({"lib": ["t.vhd"]}), "t.vhd": bench("t", "ab", head=SAME)})
boom = {"lib.t": {"output": "boom\n", "results": "test_start:a\ntest_start:b\n"}}
first = "Compiling into lib: t.vhd passed\nCompile passed\n"
lines = "pass lib.t.a\nfail lib.t.b\n" + summary(1, 1, 0)
expect("a last case without done", "same", 1, first + "boom\n" + lines, env=planned(boom))
expect("with --exit-0", "same", 0, "Re-compile not needed\nboom\n" + lines, "--exit-0", env=planned(boom))
expect("with -q", "same", 1, "Re-compile not needed\n" + lines, "-q", env=planned(boom))
expect("with -q and -v", "same", 1, "Re-compile not needed\n" + lines, "-qv", env=planned(boom))
expect("without results", "same", 1, "Re-compile not needed\nboom\nfail lib.t.a\nfail lib.t.b\n" + summary(0, 2, 0),
       env=planned({"lib.t": {"output": "boom\n", "results": None}}))
quiet = {"lib.t": {"output": "said"}}
expect("output of what passed", "same", 0, "Re-compile not needed\nsaid\npass lib.t.a\npass lib.t.b\n" + summary(2, 0, 0), "-v", env=planned(quiet))
expect("no output of what passed", "same", 0, "Re-compile not needed\npass lib.t.a\npass lib.t.b\n" + summary(2, 0, 0), env=planned(quiet))

# A project as users have it, over the children that come with the program, and its report.
project("real", REALISTIC)
JUNIT = """<?xml version="1.0" encoding="utf-8"?>
<testsuite name="testsuite" tests="2" failures="{}" skipped="0" errors="0">
  <testcase classname="tb_lib.tb_counter" name="reset"/>
  <testcase classname="tb_lib.tb_counter" name="count &amp; wrap"{}
</testsuite>
"""
built = "".join(f"Compiling into {file} passed\n" for file in ("lib: src/counter_pkg.vhd", "lib: src/counter.vhd", "tb_lib: tb/tb_counter.vhd"))
both = "pass tb_lib.tb_counter.reset\npass tb_lib.tb_counter.count & wrap\n" + summary(2, 0, 0)
expect("a project as users have it", "real", 0, built + "Compile passed\n" + both, "-x", "out.xml")
with open("real/out.xml") as file:
    if (text := file.read()) != JUNIT.format(0, "/>"):
        fail("its report", text)
write("real", {"tb/tb_counter.vhd": open("real/tb/tb_counter.vhd").read() + "-- child: fail tb_lib.tb_counter.count & wrap\n"})
one = "pass tb_lib.tb_counter.reset\nfailed tb_lib.tb_counter.count & wrap\nfail tb_lib.tb_counter.count & wrap\n" + summary(1, 1, 0)
expect("a case that fails", "real", 1, "Compiling into tb_lib: tb/tb_counter.vhd passed\nCompile passed\n" + one, "-x", "new/folder/out.xml", "-p", "2")
with open("real/new/folder/out.xml") as file:
    if (text := file.read()) != JUNIT.format(1, '>\n    <failure message="Failed"/>\n  </testcase>'):
        fail("the report of a failure", text)

# A failed report leaves the text, and the old file.
for path, cause in (("src", "write: Is a directory (os error 21)"), ("src/counter.vhd/o.xml", "stat: Not a directory (os error 20)"),
                    ("/dev/full", "write: No space left on device (os error 28)")):
    expect(f"a report to {path}", "real", 3, "Re-compile not needed\n" + one, "-x", path, error=f"vunit_run: fault of report\nvunit_run: {path}: {cause}\n")
with open("/dev/full", "w") as full:
    shutil.rmtree("real/new")
    ran = subprocess.run([PROGRAM, "-x", "new/out.xml"], cwd="real", stdin=subprocess.DEVNULL, stdout=full, stderr=subprocess.PIPE)
    if ran.returncode != 3 or b"fault of out" not in ran.stderr or os.path.exists("real/new"):
        fail("an output that is full", f"{ran}, and a report is {os.path.exists('real/new')}")

# Each text of results, with the code 0 and with another. The cases are a and b, in one simulation: p passed, f failed, s skipped.
both = "test_start:a\ntest_start:b\n"
done = "test_suite_done\n"
MOST = 1 << 20
RESULTS = [
    ("none", None, "ff", "ff"),
    ("an empty text", "", "ss", "ss"),
    ("only done", done, "ss", "ss"),
    ("both", both + done, "pp", "pf"),
    ("no line end", (both + done)[:-1], "pp", "pf"),
    ("carriage returns", (both + done).replace("\n", "\r\n"), "pp", "pf"),
    ("two carriage returns", (both + done).replace("\n", "\r\r\n"), "ss", "ss"),
    ("no done", both, "pf", "pf"),
    ("done in capitals", both + done.upper(), "pf", "pf"),
    ("the first alone", "test_start:a\n" + done, "ps", "fs"),
    ("the second alone", "test_start:b\n" + done, "sp", "sf"),
    ("the other order", "test_start:b\ntest_start:a\n" + done, "pp", "fp"),
    ("done before the last", "test_start:a\n" + done + "test_start:b\n", "pp", "pf"),
    ("done first", done + both, "pp", "pf"),
    ("a case twice", both + "test_start:a\n" + done, "pp", "fp"),
    ("a case twice without done", both + "test_start:a\n", "fp", "fp"),
    ("a name that is no case", "test_start:x\n" + done, "ss", "ss"),
    ("such a name last", both + "test_start:x\n" + done, "pp", "pf"),
    ("a blank behind a name", "test_start:a \ntest_start:b\n" + done, "sp", "sf"),
    ("a blank before a line", " test_start:a\ntest_start:b\n" + done, "sp", "sf"),
    ("other lines", "said\n" + both + "\n\0\n" + done, "pp", "pf"),
    ("bytes that aren't UTF-8", "\xff\xfe\n" + both + done + "\xc3", "pp", "pf"),
    ("a mebibyte", both + done + "x" * (MOST - len(both + done)), "pp", "pf"),
    ("a byte more", both + done + "x" * (MOST + 1 - len(both + done)), "ff", "ff"),
]
project("ends", {"vunit.toml": listing({"lib": ["t.vhd"]}), "t.vhd": bench("t", "ab", head=SAME)})
run("ends", "--compile")
said = {"p": "pass", "f": "fail", "s": "skip"}


def ended(name, plan, wanted):
    lines = "".join(f"{said[verdict]} lib.t.{case}\n" for case, verdict in zip("ab", wanted)) + summary(*map(wanted.count, "pfs"))
    expect(name, "ends", 0 if wanted == "pp" else 1, "Re-compile not needed\n" + lines, env=planned({"lib.t": plan}))


for name, results, well, badly in RESULTS:
    ended(f"results: {name}", {"results": results}, well)
    ended(f"results: {name}, and code 1", {"results": results, "code": 1}, badly)

# Codes of a simulator that says that all is done, and a signal: only 0 is a good end. With 75 it had no answer.
for code in (1, 2, 3, 74, 76, 127, 128, 254, 255):
    ended(f"code {code}", {"code": code}, "pf")
ended("a signal", {"signal": 9}, "pf")
expect("no answer", "ends", 3, "", env=planned({"lib.t": {"code": 75}}), error="vunit_run: fault of child\nvunit_run: lib.t: end: its code, 75, says that it has no answer\n")
loud = run("ends", "-v", env=planned({"lib.t": {"output": "x" * (1 << 20)}}))
if loud != (0, b"Re-compile not needed\n" + b"x" * 4096 + b"\npass lib.t.a\npass lib.t.b\n" + summary(2, 0, 0).encode(), b""):
    fail("an output of a mebibyte", f"{loud[0]}, {len(loud[1])} bytes, {loud[2][:300]}")

# Results of an earlier run aren't those of this one.
expect("a pass", "ends", 0, "Re-compile not needed\npass lib.t.a\npass lib.t.b\n" + summary(2, 0, 0), env=planned({}))
expect("and then no results", "ends", 1, "Re-compile not needed\nfail lib.t.a\nfail lib.t.b\n" + summary(0, 2, 0), env=planned({"lib.t": {"results": None}}))

# Several at once: each waits for the other's file.
project("pair", {"vunit.toml": listing({"lib": ["*.vhd"]}), "t.vhd": bench("t", ["a", "b", "c"])})
pair = {"lib.t.a": {"makes": "a_runs", "awaits": "b_runs"}, "lib.t.b": {"makes": "b_runs", "awaits": "a_runs"}}
text = "pass lib.t.a\npass lib.t.b\npass lib.t.c\n" + summary(3, 0, 0)
expect("two at once", "pair", 0, "Compiling into lib: t.vhd passed\nCompile passed\n" + text, "-p", "2", env=planned(pair))
if [found[3] for found in started()] not in ([[b"a"], [b"b"], [b"c"]], [[b"b"], [b"a"], [b"c"]]):
    fail("two at once", f"these were started: {started()}")

# With --fail-fast none is started after a run that didn't pass has ended.
broken = {"lib.t.a": {"code": 1, "results": None}}
expect("--fail-fast", "pair", 1, "Re-compile not needed\nfail lib.t.a\nskip lib.t.b\nskip lib.t.c\n" + summary(0, 1, 2), "--fail-fast", env=planned(broken))
if len(started()) != 1:
    fail("--fail-fast", f"these were started: {started()}")
expect("and without", "pair", 1, "Re-compile not needed\nfail lib.t.a\npass lib.t.b\npass lib.t.c\n" + summary(2, 1, 0), env=planned(broken))

# A lost child: the other one is waited for, nothing is put, and nothing else is started.
lost = {"lib.t.a": {"code": 75, "awaits": "b_began"}, "lib.t.b": {"makes": "b_began", "sleeps": 1}}
status, text, error = run("pair", "-p", "2", "-x", "lost.xml", env=planned(lost))
if status != 3 or text or not error.startswith(b"vunit_run: fault of child\nvunit_run: lib.t.a: ") or os.path.exists("pair/lost.xml"):
    fail("a lost child", f"{status} {text} {error}")
if sorted(found[3] for found in started()) != [[b"a"], [b"b"]]:
    fail("a lost child", f"these were started: {started()}")

# A simulator that isn't there.
project("none", {"vunit.toml": listing({"lib": ["t.vhd"]}, ["no_such_simulator"]), "t.vhd": bench("t", ["a"])})
missing = "vunit_run: fault of start\nvunit_run: no_such_simulator (vunit_out/tests/lib.t.a/vunit_results): start: No such file or directory (os error 2)\n"
expect("no simulator", "none", 3, "", error=missing)
expect("and what was compiled is kept", "none", 3, "", error=missing)

# Names: each byte alone. What ends a line ends the string, a control character isn't in a name, nor is what isn't UTF-8; all else is.
project("byte", {"vunit.csv": "lib,t.vhd\n"})
for byte in range(256):
    write("byte", {"t.vhd": b'entity t is generic (runner_cfg : string); end;\narchitecture a of t is begin\nx <= run("' + bytes([byte]) * (1 + (byte == 34)) + b'");\nend;\n'})
    status, text, error = run("byte", "-l")
    wanted = ((1, b"vunit_run: lib, t.vhd: unclosed string at 86\n") if byte in (10, 11, 12, 13)
              else (1, b"vunit_run: bench lib.t has a bad test name\n") if byte < 32 or byte > 126
              else (0, b"lib.t." + bytes([byte]) + b"\nListed 1 tests\n"))
    if (status, text) != wanted:
        fail(f"the byte {byte} in a name", f"{status, text} and not {wanted}")

# Names of commas, colons, quotes, ampersands, and characters of two to four bytes run, each a run and all in one, and the report is XML.
names = [chr(code).replace('"', '""') for code in [*range(32, 127), *range(0x80, 0xA0), 0x7FF, 0x800, 0xD7FF, 0xE000, 0xFFFD, 0xFFFE, 0xFFFF, 0x10000, 0x10FFFF]]
names += ["a,b", "a:b", 'a""b', "a&amp;b", "<a>", "é€𝄞", "..", "%s", "\\n", "a" * 200]
shown = [name.replace('""', '"') for name in names]
for head in ("", SAME):
    project("names", {"vunit.toml": listing({"lib": ["t.vhd"]}, None), "t.vhd": bench("t", names, head=head)})
    status, text, error = run("names", "-x", "out.xml", "-p", "16")
    # (in one simulation a case that begins with a comma, behind one that ends with one, can't be told from it: here none is)
    wanted = "".join(f"pass lib.t.{name}\n" for name in shown) + summary(len(names), 0, 0)
    if status != 0 or not text.decode().endswith(wanted) or error:
        fail("names", f"{status} {text.decode()[-1500:]} {error}")
    found = [case.get("name") for case in xml.parse("names/out.xml").getroot()]
    if found != [name.replace("\ufffe", "\ufffd").replace("\uffff", "\ufffd") for name in shown]:
        fail("names in a report", f"{found}")

# A name whose folder is longer than a file system takes is a failed start, and the line names the test's folder.
project("long", {"vunit.toml": listing({"lib": ["t.vhd"]}, None), "t.vhd": bench("t", ["a" * 250])})
status, text, error = run("long")
place = b"vunit_out/tests/lib.t." + b"a" * 250 + b"/vunit_results"
if (status, text, error) != (3, b"", b"vunit_run: fault of start\nvunit_run: @self child-bench (" + place + b"): make the folder of its results: File name too long (os error 36)\n"):
    fail("a long name", f"{status} {text[:300]} {error[:600]}")
project("fits", {"vunit.toml": listing({"lib": ["t.vhd"]}, None), "t.vhd": bench("t", ["a" * 249])})
if run("fits")[0] != 0:
    fail("a name that just fits", f"{run('fits')}")

# As many cases as may be, in one simulation.
letters = "abcdefghijklmnopqrstuvwxyz0123456789"
many = [f"{letters[at // 36 // 36 // 36]}{letters[at // 36 // 36 % 36]}{letters[at // 36 % 36]}{letters[at % 36]}"[-3 if at < 46656 else -4:] for at in range(65537)]
project("many", {"vunit.csv": "lib,t.vhd\n", "t.vhd": bench("t", many[:65536], head=SAME)})
status, text, error = run("many", seconds=250)
if status != 0 or not text.endswith(summary(65536, 0, 0).encode()) or error:
    fail("65,536 cases", f"{status} {text[-300:]} {error}")
project("more", {"vunit.csv": "lib,t.vhd\n", "t.vhd": bench("t", many, head=SAME)})
expect("65,537 cases", "more", 5, "vunit_run: over limit: tests 65536\n")
end()
END
