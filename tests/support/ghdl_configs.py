"""Configurations with GHDL, by the program under wrappers/vunit_configs. Verdicts are by hand, as the names of cases say what they
check. Works in the present folder."""

import os, shutil, subprocess
from xml.etree import ElementTree

from ghdl_generics_texts import bench
from ghdl_trial import TOP, compare_runs, report, with_ghdl
from trial import end, fail, project

TOOL = os.path.join(TOP, "wrappers", "vunit_configs")
TB_WIDE = bench("tb_wide", "; width : integer := 1; title : string := \"none\"", [
    ("width 1", "check_equal(width, 1);"), ("width 7", "check_equal(width, 7);"),
    # (the bench is the top of its simulation, as without configurations)
    ("title", "check_equal(title, \"a b\"); check_equal(tb_wide'path_name, \":tb_wide:\");")])
TB_ONE = bench("tb_one", "; width : integer := 1", [("width 1", "check_equal(width, 1);"), ("runs", "null;")],
               "-- vunit: run_all_in_same_sim")
TB_PLAIN = bench("tb_plain", "", [("passes", "null;"), ("fails", "check_failed(\"as it has to\");")])
# A line for each compile that is started.
COUNTER = '#!/bin/sh\necho compiled >>compiles\nexec ghdl_analyse "$@"\n'
FILES = {"tb/tb_wide.vhd": TB_WIDE, "tb/tb_one.vhd": TB_ONE, "tb/tb_plain.vhd": TB_PLAIN, "count": COUNTER,
         "vunit.toml": with_ghdl({"tb_lib": ["tb/*.vhd"]}).replace('"ghdl_analyse"', '"./count"')}


def row(bench, name, **keys):
    lines = [f'bench = "tb_lib.{bench}"', f'name = "{name}"', *(f"{key} = {value}" for key, value in keys.items())]
    return "\n".join(["[[configuration]]", *lines, ""])


NARROW, WIDE = row("tb_wide", "narrow"), row("tb_wide", "wide", generics='{ width = 7, title = "a b" }')
ONE = row("tb_one", "as it is") + row("tb_one", "two", generics="{ width = 2 }")


def compiles():
    with open("p/compiles", encoding="ascii") as file:
        return file.read().count("compiled")


def run(name, table, words, rows, status, tool=TOOL, **variables):
    """Runs a tool over a table, and compares text, status and report with rows of class, case, verdict and shown text."""
    with open("p/table.toml", "w", encoding="utf-8") as file:
        file.write(table)
    ran = subprocess.run([tool, "table.toml", "-x", "out.xml", *words], cwd="p", stdin=subprocess.DEVNULL, capture_output=True,
                         env={**os.environ, **variables})
    built, passed, text = ran.stdout.decode().partition("Compile passed\n")
    if not passed:
        built, _, text = ran.stdout.decode().partition("Re-compile not needed\n")
    wrong = compare_runs(text, rows)
    with open("p/out.xml", encoding="utf-8") as file:
        found = file.read()
    if wrong or ran.returncode != status or found != report(in_report(rows)):
        fail(name, f"status {ran.returncode}, {wrong}, report {found}, standard error {ran.stderr.decode()}")
    return built


def group(bench, configuration=None):
    return f"tb_lib.{bench}" + (f".{configuration}" if configuration else "")


def in_report(rows):
    """The rows as a report has them: the class is that of the bench, and a configuration is part of the name."""
    found = []
    for name, case, *rest in rows:
        library, bench, *configuration = name.split(".")
        found.append((f"{library}.{bench}", ".".join([*configuration, case]), *rest))
    return found


PLAIN = [(group("tb_plain"), "passes", "p", ""), (group("tb_plain"), "fails", "f", ["check - ERROR - as it has to"])]
IN_ONE = [(group("tb_one", "as it is"), "width 1", "p", ""), (group("tb_one", "as it is"), "runs", "p", ""),
          (group("tb_one", "two"), "width 1", "f", ["Got 2. Expected 1."]), (group("tb_one", "two"), "runs", "s", "")]
WITH_TWO = [(group("tb_wide", "narrow"), "width 1", "p", ""), (group("tb_wide", "wide"), "width 1", "f", ["Got 7. Expected 1."]),
            (group("tb_wide", "narrow"), "width 7", "f", ["Got 1. Expected 7."]), (group("tb_wide", "wide"), "width 7", "p", ""),
            (group("tb_wide", "narrow"), "title", "f", ["Got none. Expected a b."]), (group("tb_wide", "wide"), "title", "p", "")]
WITH_ONE = [each for each in WITH_TWO if each[0].endswith("narrow")]

# One configuration more starts no compiler, and neither do several in one call.
project("p", FILES)
os.chmod("p/count", 0o755)
built = run("one configuration", NARROW, ["-p", "4"], [("tb_lib.tb_one", "width 1", "p", ""), ("tb_lib.tb_one", "runs", "p", ""),
                                                       *PLAIN, *WITH_ONE], 1)
if compiles() != 3 or built.count("passed") != 3:
    fail("one configuration", f"{compiles()} compiles: {built}")
for at_once in ("1", "4"):
    built = run(f"all, -p {at_once}", NARROW + WIDE + ONE, ["-p", at_once], [*IN_ONE, *PLAIN, *WITH_TWO], 1)
    if compiles() != 3 or built:
        fail(f"all, -p {at_once}", f"{compiles()} compiles: {built}")
run("selected", NARROW + WIDE + ONE, ["*.wide.*7", "*.passes", "*.as it is.*"], [*IN_ONE[:2], PLAIN[0], WITH_TWO[3]], 0)
folders = ["narrow.title", "narrow.width=201", "narrow.width=207", "wide.title", "wide.width=201", "wide.width=207"]
found = {name for name in os.listdir("p/vunit_out/tests") if name.startswith(("tb_lib.tb_wide.narrow", "tb_lib.tb_wide.wide"))}
if found != {f"tb_lib.tb_wide.{folder}" for folder in folders} or any("output.txt" not in os.listdir(f"p/vunit_out/tests/{name}")
                                                                     for name in found):
    fail("folders", found)

# A report with times and outputs knows of configurations, in one simulation too.
subprocess.run([TOOL, "table.toml", "-p", "4", "*.tb_one.two.*", "*.wide.width 1"], cwd="p", stdin=subprocess.DEVNULL,
               stdout=subprocess.DEVNULL, stderr=subprocess.DEVNULL, env={**os.environ, "VUNIT_REPORT": "report.xml"})
found = {}
for case in ElementTree.parse("p/report.xml").iter("testcase"):
    failure, output = case.find("failure"), case.find("system-out")
    found[case.get("classname"), case.get("name")] = (case.get("time") is not None, None if failure is None else failure.get("message"),
                                                      case.find("skipped") is not None)
    if failure is not None and "Got" not in output.text:
        fail("a report", f"the output of {case.get('name')} is {output}")
wanted = {("tb_lib.tb_one", "two.width 1"): (True, "tb/tb_one.vhd:14: Equality check failed - Got 2. Expected 1.", False),
          ("tb_lib.tb_one", "two.runs"): (True, None, True),
          ("tb_lib.tb_wide", "wide.width 1"): (True, "tb/tb_wide.vhd:14: Equality check failed - Got 7. Expected 1.", False)}
if found != wanted:
    fail("a report", f"{found}")

# The hooks of a configuration, and its faults: each by name.
HOOKED = (row("tb_wide", "made", before='"echo $BENCH_CONFIGURATION $BENCH_GENERIC_width >$BENCH_OUTPUT_PATH/made.txt"',
              generics="{ width = 7 }", after="['grep \"^made 7$\" $BENCH_OUTPUT_PATH/made.txt', 'test $BENCH_VERDICT = pass']")
          + row("tb_wide", "refused", before='"echo no; exit 4"') + row("tb_wide", "misspelt", generics="{ widht = 7 }"))
MISSPELT = "ghdl_bench: -gwidht=7: the bench tb_lib.tb_wide has no generic widht\n"
run("hooks", HOOKED, ["*width 7"], [
    (group("tb_wide", "made"), "width 7", "p", ""),
    (group("tb_wide", "refused"), "width 7", "f", ["no\nghdl_bench: --before ended with 4: echo no; exit 4\n",
                                                   "tb/tb_wide.vhd:7: --before ended with 4: echo no; exit 4\n"]),
    (group("tb_wide", "misspelt"), "width 7", "f", MISSPELT)], 1)

# Over an engine that starts the simulator elsewhere: the stand-in comes before it.
os.mkdir("p/cluster")
os.symlink(os.path.join(TOP, "wrappers", "over_engine"), "p/cluster/ghdl_bench")
os.environ.update(PATH=os.pathsep.join([os.path.abspath("p/cluster"), os.environ["PATH"]]), OVER_ENGINE="env")
run("over an engine", NARROW + WIDE, ["-p", "2", "*tb_wide.*7"], [WITH_TWO[2], WITH_TWO[3]], 1)
os.environ["PATH"] = os.environ["PATH"].partition(os.pathsep)[2]

# Cases of two configurations run at once: each waits until the other one is there.
MEETS = 'touch {own}; for count in $(seq 600); do [ ! -e {other} ] || exit 0; sleep 0.1; done; exit 1'
MEETING = (row("tb_wide", "left", before="'" + MEETS.format(own="left", other="right") + "'")
           + row("tb_wide", "right", before="'" + MEETS.format(own="right", other="left") + "'"))
run("at once", MEETING, ["-p", "4", "*tb_wide.*width 1"], [(group("tb_wide", "left"), "width 1", "p", ""),
                                                 (group("tb_wide", "right"), "width 1", "p", "")], 0)
# Within vunit_ci, and around it: VUNIT_RUN names the inner one of the two.
if os.path.exists(os.path.join(TOP, "wrappers", "vunit_ci")):
    os.mkdir("p/bin")
    os.symlink(os.environ["VUNIT_RUN"], "p/bin/vunit_run")
    path = os.pathsep.join([os.path.abspath("p/bin"), os.environ["PATH"]])
    selected, rows = ["-p", "2", "*tb_wide.*7", "*.as it is.*"], [*IN_ONE[:2], WITH_TWO[2], WITH_TWO[3]]
    run("within vunit_ci", NARROW + WIDE + ONE, selected, rows, 1, "vunit_ci", VUNIT_RUN="vunit_configs", PATH=path)
    run("within vunit_ci, all passed", WIDE, ["*tb_wide.*7"], [WITH_TWO[3]], 0, "vunit_ci", VUNIT_RUN="vunit_configs", PATH=path)
    run("around vunit_ci", NARROW + WIDE + ONE, selected, rows, 1, VUNIT_RUN="vunit_ci", PATH=path)
else:
    print("not tried: vunit_configs within vunit_ci, which isn't beside it")
left = [name for name in os.listdir(os.environ["TMPDIR"])]
if left:
    fail("at the end", f"it left {left}")
shutil.rmtree("p")
end()
