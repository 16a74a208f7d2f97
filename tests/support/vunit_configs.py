"""Runs wrappers/vunit_configs over the program, with a simulator that does what its words say: text, status and reports are written by
hand. Works in the present folder."""

import json, os, re, subprocess

from configs_trial import BENCHES, BUILT, FRESH, HERE, PROGRAM, TOOL, bench, check, configuration, junit, listing, project, read, start, tests

# Names, order, output and verdicts: of a bench whose cases run alone, of one in one simulation, of one without cases.
TABLE = (configuration("lib.tb_wide", "n={n}", generics="{ n = [1, 2] }") + configuration("lib.tb_wide", "last", words=["--only=right:--fails"])
         + configuration("lib.tb_one", "good") + configuration("lib.tb_one", "bad", words=["--fails"])
         + configuration("lib.tb_whole", "w", generics='{ s = "a b", t = true, r = 1e-9, i = -3 }'))
FAILED = [" lib.tb_one|a|b|--configuration=bad|", "ptb_one.bad.a", "ftb_one.bad.b"]
WIDE = ["pwide.n=1.left", "pwide.n=2.left", "pwide.last.left", "pwide.n=1.right", "pwide.n=2.right",
        " lib.tb_wide|right|--configuration=last|", "fwide.last.right"]
WIDE = [line if line[0] == " " else f"{line[0]}tb_{line[1:]}" for line in WIDE]
ALL = tests("ptb_one.good.a", "ptb_one.good.b", *FAILED, "ptb_other.x", "ptb_other.y", "ptb_whole.w.all", *WIDE)
TOLD = ("vunit_configs: fail lib.tb_one.bad.b (N s): vunit_out/tests/lib.tb_one.bad\n"
        "vunit_configs: fail lib.tb_wide.last.right (N s): vunit_out/tests/lib.tb_wide.last.right\n")
LISTED = ["tb_one.good.a", "tb_one.bad.a", "tb_one.good.b", "tb_one.bad.b", "tb_other.x", "tb_other.y", "tb_whole.w.all",
          "tb_wide.n=1.left", "tb_wide.n=2.left", "tb_wide.last.left", "tb_wide.n=1.right", "tb_wide.n=2.right", "tb_wide.last.right"]


def without_seconds(ran):
    ran.stderr = re.sub(rb"\(\d+\.\d s\)", b"(N s)", ran.stderr)
    return ran


REPORT = junit(("p", "tb_one.good", "a"), ("p", "tb_one.good", "b"), ("p", "tb_one.bad", "a"), ("f", "tb_one.bad", "b"),
               ("p", "tb_other", "x"), ("p", "tb_other", "y"), ("p", "tb_whole.w", "all"), ("p", "tb_wide.n=1", "left"),
               ("p", "tb_wide.n=2", "left"), ("p", "tb_wide.last", "left"), ("p", "tb_wide.n=1", "right"),
               ("p", "tb_wide.n=2", "right"), ("f", "tb_wide.last", "right"))
for at_once in ("1", "4", "64"):
    project(TABLE)
    # (the simulations of several stand-ins end in any order)
    ran = without_seconds(start("-p", at_once, "-x", "out.xml"))
    ran.stderr = b"".join(sorted(ran.stderr.splitlines(keepends=True)))
    check(f"all, -p {at_once}", ran, 1, BUILT + ALL, TOLD)
    assert read("out.xml") == REPORT, read("out.xml")
check("again, into the same report", start("-p", "4", "-x", "out.xml"), 1, FRESH + ALL)
assert read("out.xml") == REPORT
folders = ["lib.tb_one", "lib.tb_one.bad", "lib.tb_one.good", "lib.tb_other.x", "lib.tb_other.y", "lib.tb_whole", "lib.tb_whole.w",
           "lib.tb_wide.last.left", "lib.tb_wide.last.right", "lib.tb_wide.left", "lib.tb_wide.n=3d1.left", "lib.tb_wide.n=3d1.right",
           "lib.tb_wide.n=3d2.left", "lib.tb_wide.n=3d2.right", "lib.tb_wide.right"]
assert sorted(os.listdir("p/vunit_out/tests")) == folders, sorted(os.listdir("p/vunit_out/tests"))
assert read("vunit_out/tests/lib.tb_one/output.txt") == "pass vunit_out/tests/lib.tb_one.good\nfail vunit_out/tests/lib.tb_one.bad\n"
VERBOSE = [" lib.tb_whole|--configuration=w|-gs=a b|-gt=true|-gr=1.0e-09|-gi=-3|", "ptb_whole.w.all"]
check("with -v", start("-v", "*whole*"), 0, FRESH + tests(*VERBOSE))
check("with -q", start("-vq", "*.bad.*"), 1, FRESH + tests(*FAILED[1:]))
check("with --exit-0", start("--exit-0", "*.bad.*"), 0, FRESH + tests(*FAILED))

# Patterns go over the names with configurations, and select no other test along.
check("a list", start("-l"), 0, listing(LISTED), "")
for patterns, names in [(["*n=2*"], LISTED[8:9] + LISTED[11:12]), (["lib.tb_wide.*left", "*.x"], [LISTED[4], *LISTED[7:10]]),
                        (["lib.tb_wide.left"], []), (["*tb_wide.left", "*.tb_other.*"], LISTED[4:6]), (["*[!1].right"], [LISTED[11],
                         LISTED[12]]), (["*.good.b"], [LISTED[2]]), (["*.all"], [LISTED[6]]), (["nothing"], [])]:
    check(patterns, start("-l", *patterns), 0, listing(names), "")
    ran = start("-p", "4", "-q", "--exit-0", *patterns)
    lines = [line.partition(" ")[2] for line in ran.stdout.decode().splitlines() if " lib." in line]
    assert sorted(lines) == sorted(f"lib.{name}" for name in names), (patterns, lines)
    if not names:
        check(patterns, ran, 0, FRESH + "No tests were run!\n")
check("nothing to run", start("-x", "none.xml", "*tb_wide.left"), 0, FRESH + "No tests were run!\n")
assert read("none.xml") == junit()

# An export has the names, each with the place of its test.
check("an export", start("--export-json", "tests.json", "*.left", "*.x"), 0, "", "")
subprocess.run([PROGRAM, "--export-json", "own.json", "*.left", "*.x"], cwd="p", check=True)
own, export = json.loads(read("own.json")), json.loads(read("tests.json"))
assert export["files"] == own["files"] and read("tests.json").endswith("}\n"), export
assert export["tests"] == [own["tests"][0]] + [{**own["tests"][1], "name": f"lib.{name}"} for name in LISTED[7:10]], export

# What looks for no test is the program's own.
for words in (["-f"], ["--compile"], ["--generate", "2"], ["-fm", "*.x"], ["--compile", "-m", "*n=1.left"]):
    check(words, start(*words), 0)
assert start("-f").stdout == subprocess.run([PROGRAM, "-f"], cwd="p", capture_output=True).stdout
assert start("-fm", "*n=1.left").stdout == b"lib, wide.vhd\nListed 1 files\n"

# Cases alone: a case without a configuration runs normally; one simulation cannot have such cases.
project(configuration("lib.tb_wide", "l", case="left") + configuration("lib.tb_one", "a", case="a"))
IN_ONE = "vunit_configs: lib.tb_one has a configuration of some cases, a, and all of them run in one simulation"
check("of some cases", start("-p", "4"), 1, BUILT + tests(f" {IN_ONE}", "ftb_one.a.a", "ptb_other.x", "ptb_other.y", "ptb_whole.all",
                                                         "ptb_wide.l.left", "ptb_wide.right"))

# With --fail-fast nothing begins after a failure, within a run of the program neither.
project(TABLE)
SKIPPED = [f"s{name}" for name in LISTED[4:]]
check("--fail-fast", start("--fail-fast", "-x", "out.xml"), 1, BUILT + tests("ptb_one.good.a", "ptb_one.good.b", *FAILED, *SKIPPED))
assert read("out.xml").count("<skipped/>") == 9
project(configuration("lib.tb_wide", "bad", words=["--fails"]) + configuration("lib.tb_wide", "n={n}", generics="{ n = [1, 2] }"))
check("--fail-fast in a run", start("--fail-fast", "*wide*"), 1, BUILT + tests(
    " lib.tb_wide|left|--configuration=bad|", "ftb_wide.bad.left", *(f"stb_wide.{name}" for name in (
        "n=1.left", "n=2.left", "bad.right", "n=1.right", "n=2.right"))))

# How simulators end.
project(configuration("lib.tb_wide", "three", words=["--code=3"]) + configuration("lib.tb_wide", "signal", words=["--code=0"]))
check("a code", start("*.left"), 1, BUILT + tests(" lib.tb_wide|left|--configuration=three|", "ftb_wide.three.left", "ptb_wide.signal.left"))
project(configuration("lib.tb_wide", "none", words=["--code=75"]) + configuration("lib.tb_wide", "other"))
ran = start("*.left", "*.x")
assert ran.returncode == 3 and ran.stdout == b"" and b"vunit_run: fault of child\n" in ran.stderr, ran
project(configuration("lib.tb_wide", "killed", words=["--kills-parent"]) + configuration("lib.tb_wide", "later"))
LOST = " vunit_configs: the simulation was ended from outside"
check("a killed stand-in", start("*.left", "*.x"), 1, BUILT + tests("ptb_other.x", LOST, "ftb_wide.killed.left", "stb_wide.later.left"))

# A folder that can't be made fails the case by name.
project(configuration("lib.tb_wide", "n"))
start("--compile")
os.makedirs("p/vunit_out/tests")
with open("p/vunit_out/tests/lib.tb_wide.n.left", "w", encoding="ascii"):
    pass
check("a file in the way", start("*.left"), 1, FRESH + tests(" vunit_configs: vunit_out/tests/lib.tb_wide.n.left: File exists",
                                                            "ftb_wide.n.left"))
project(configuration("lib.tb_wide", "n" * 150), files={"wide.vhd": bench("tb_wide", "x" * 100)})
check("a long name", start(), 1, None, holds=[f"vunit_out/tests/lib.tb_wide.{'n' * 150}.{'x' * 100}: File name too long\n"])

# Names of any kind, in the text, in a folder of their own, and in a report.
ODD = {"a/b": "a=2fb", 'x & "y" <z>': "x=20=26=20=22y=22=20=3cz=3e", "\u00e9\u20ac": "=c3=a9=e2=82=ac", "..": "..", " ": "=20",
       "a:b, c.d": "a=3ab=2c=20c.d", "%s [x] *": "=25s=20=5bx=5d=20=2a", "--x": "--x", "{n}": "=7bn=7d"}
project("".join(configuration("lib.tb_whole", name) for name in ODD))
check("odd names", start("*.tb_whole.*", "-p", "4", "-x", "out.xml"), 0, BUILT + tests(*(f"ptb_whole.{name}.all" for name in ODD)))
assert sorted(os.listdir("p/vunit_out/tests")) == sorted(["lib.tb_whole", *(f"lib.tb_whole.{folder}" for folder in ODD.values())])
in_xml = lambda text: text.replace("&", "&amp;").replace("<", "&lt;").replace(">", "&gt;").replace('"', "&quot;")
assert read("out.xml") == junit(*(("p", f"tb_whole.{in_xml(name)}", "all") for name in ODD)), read("out.xml")
check("a literal pattern", start("-l", "lib.tb_whole.%s [[]x[]] [*].all"), 0, listing(["tb_whole.%s [x] *.all"]))

# Tables that are refused: nothing is compiled for them.
ROW = '[[configuration]]\nbench = "lib.tb_wide"\nname = "n"\n'
TABLES = [
    ("", "table.toml: the table has no [[configuration]]"), ("a = 1", "table.toml:1: unknown key a"),
    ("[[configuration]\n", "table.toml:1:16: ]] is missing here"), ("[configuration]", "table.toml:1: configuration has to be "
     "[[configuration]] tables"), ("[[configurations]]", "table.toml:1: unknown key configurations (did you mean configuration?)"),
    (ROW + "generic = {}", "table.toml:4: unknown key generic (did you mean generics?)"),
    ('[[configuration]]\nname = "n"', "table.toml:1: a configuration has no bench"),
    ('[[configuration]]\nbench = "lib.tb_wide"', "table.toml:1: a configuration has no name"),
    (ROW.replace('"n"', '""'), "table.toml:3: wrong value of name: it has to be a text without control characters"),
    (ROW.replace('"n"', "7"), "table.toml:3: wrong value of name: it has to be a text without control characters"),
    (ROW.replace('"n"', '"a\\nb"'), "table.toml:3: wrong value of name: it has to be a text without control characters"),
    (ROW.replace("tb_wide", "tb_wild"), "table.toml:1: no bench lib.tb_wild (did you mean lib.tb_wide?)"),
    (ROW.replace("lib.tb_wide", "zzz"), "table.toml:1: no bench zzz"),
    (ROW + 'case = "middle"', "table.toml:1: no case of lib.tb_wide matches middle"),
    (ROW + ROW, "table.toml:4: the test lib.tb_wide.n.left stands twice"),
    (ROW + 'case = "l*"\n' + ROW + 'case = "left"\n', "table.toml:5: the test lib.tb_wide.n.left stands twice"),
    (ROW + "generics = 7", "table.toml:4: wrong value of generics: it has to be a table"),
    (ROW + "generics.n = [[1]]", "table.toml:4: wrong value of n: it has to be a text, a number or a truth value"),
    (ROW + "generics.n = nan", "table.toml:4: wrong value of n: it has to be a text, a number or a truth value"),
    (ROW + 'generics.n = "a\\u0000b"', "table.toml:4: wrong value of n: it has to be a text, a number or a truth value"),
    (ROW + 'generics.n = ""', "table.toml:1: -gn= has no value: GHDL takes none that is empty"),
    (ROW + 'generics."a b" = 1', "table.toml:1: -ga b=1 isn't -gNAME=VALUE, with a name that isn't extended"),
    (ROW + "generics.runner_cfg = 1", "table.toml:1: -grunner_cfg=1 isn't for the project file: it names a file, a library or the "
     "runner's generic"),
    (ROW + 'words = "--x"', "table.toml:4: wrong value of words: it has to be an array of texts"),
    (ROW + 'words = ["--in=a:-b"]', "table.toml:1: --in=a:-b stands within words of --in or of a configuration"),
    (ROW + 'before = ""', "table.toml:4: wrong value of before: it has to be an array of texts"),
    (ROW + 'before = " "', "table.toml:1: --before=  has no command"),
    (ROW + f'generics.n = "{"x" * 131_100}"', "table.toml:1: a word of 131104 bytes is more than a command takes"),
    (ROW.replace('"n"', f'"{"x" * 300}"'), f"table.toml:1: lib.tb_wide.{'x' * 300} is too long for the name of a folder"),
    (ROW.replace('"n"', '"{n}"') + 'generics.n = ["a", "b\\n"]', "table.toml:1: a value in the name has a control character"),
    (ROW.replace('"n"', '"{a}"') + f"generics.a = {list(range(40_000))}", "table.toml:1: there are over 65536 tests in configurations"),
    (ROW.replace('"n"', '"{a}{b}"') + f"generics.a = {list(range(300))}\ngenerics.b = {list(range(300))}",
     "table.toml:1: there are over 65536 configurations"),
    ("# " + "x" * 4_194_304, "table.toml: the table has over 4194304 bytes")]
for table, fault in TABLES:
    project(table)
    for words in ([], ["-l"]):
        check((table[:300], words), start(*words), 1, "", f"vunit_configs: {fault}\n")
    assert not os.path.exists("p/vunit_out"), table
files = {"wide.vhd": bench("tb_wide", "left", "n.left")}
project(ROW, files=files)
check("a folder of two", start(), 1, "", "vunit_configs: table.toml:1: the test lib.tb_wide.n.left has the name of a case without "
      "configurations\n")
project(ROW)
check("no table", start(tool=(TOOL, "none.toml")), 3, "", "vunit_configs: none.toml: No such file or directory\n")
check("a folder as a table", start(tool=(TOOL, ".")), 3, "", "vunit_configs: .: Is a directory\n")
for words in ([], ["-l"]):
    check("no words", start(*words, tool=(TOOL,)), 2, "", "vunit_configs: usage: vunit_configs TABLE [WORD ..]\n")
for words, fault in [(["--lisst"], "--lisst is no word of vunit_run"), (["-p", "65"], "-p takes a number from 1 to 64"),
                     (["-x"], "-x has no value")]:
    check(words, start(*words), 2, "", f"vunit_configs: {fault}\n")
# (a tool around this one may put options first)
check("an option first", start("table.toml", "*.x", tool=(TOOL, "-q", "--clean")), 0)
check("help", start("--help", tool=(TOOL,)), 0, holds=["usage: vunit_configs TABLE [WORD ..]"])

# Refusals of the program are handed on, and so are simulators that no stand-in can stand for.
project(ROW, files={**BENCHES, "bad.vhd": "foo"})
ran = start()
check("a refusal", ran, 1, "vunit_run: lib, bad.vhd: no design unit at 0\n", "")
assert b"bad.vhd:1:1: lib, bad.vhd: no design unit at 0\n" in ran.stderr, ran.stderr
for simulator, status, fault in [("./plays", 1, "the simulator ./plays isn't one that PATH finds, as ghdl_bench is: it has no "
                                  "configurations"), ("@self", 1, "the simulator @self isn't one that PATH finds, as ghdl_bench is: it "
                                  "has no configurations"), ("no_such", 3, "there is no command no_such")]:
    project(ROW, [simulator])
    check(simulator, start(), status, "", f"vunit_configs: {fault}\n")
project(ROW)
text = read("vunit.toml")
with open("p/vunit.toml", "w", encoding="utf-8") as file:
    file.write('compiler = ["plays"]\n' + text)
check("one command for both", start(), 1, "", "vunit_configs: the simulator plays is the compiler too: it has no configurations\n")
project(ROW)
os.mkdir("p/a:b")
ran = start(env={**os.environ, "TMPDIR": f"{HERE}/p/a:b"})
assert ran.returncode == 3 and b"set TMPDIR to a folder without :" in ran.stderr and not os.listdir("p/a:b"), ran
os.mkfifo("p/pipe")
check("a pipe without a reader", start("-x", "pipe", "*.x"), 3, BUILT + tests("ptb_other.x"), "vunit_configs: pipe: No such device or "
      "address\n")
check("a report on the output", start("-x", "/dev/stdout", "*.n.left"), 0, FRESH + tests("ptb_wide.n.left") + junit(
    ("p", "tb_wide.n", "left")))
