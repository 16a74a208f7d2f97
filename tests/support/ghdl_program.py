"""Runs benches with GHDL by the program alone, each kind at `-p 1` and at `-p 64`: the text that it prints, its status and its
report, with verdicts by hand. Works in the present folder."""

import resource

import ghdl_bench_texts as texts
import ghdl_check_texts
from ghdl_trial import BY_GHDL, check, with_ghdl
from trial import end, fail, project, run


def check_bench(name, text, cases, *words, simulator=BY_GHDL):
    """As `check`, of the one bench that a text has, by a row of case, verdict and shown text for each."""
    project("one", {"vunit.toml": with_ghdl({"tb_lib": ["tests/*.vhd"]}, simulator), "tests/tb.vhd": text,
                    "tests/data.txt": texts.DATA})
    check(name, "one", ["tb_lib: tests/tb.vhd"], [("tb_lib.tb", *case) for case in cases], *words)


def parts(verdict, holds):
    """The shown text of a run: of a passed one nothing."""
    return "" if verdict == "p" else holds


# Each kind of case, each in a simulation of its own.
check_bench("kinds of cases", texts.OF_CASES, [
    (name, verdict, parts(verdict, holds + ([f"main at tb.vhd:{texts.WRONG_LINE}\n"] if name == "has a wrong check" else [])))
    for name, _, verdict, _, holds in texts.CASES])
with open(f"one/{texts.COPIED}") as file:
    if (found := file.read()) != texts.DATA:
        fail("a file that a bench writes", found)
check_bench("-v", texts.OF_CASES, [("passes", "p", "0 fs - default - INFO - all is well\nsimulation finished @0ms with status 0\n")],
            "-v", "*.passes")
check_bench("without cleanup", texts.OF_CASES, [
    ("finishes without cleanup", "f", "simulation finished @0ms\n" + texts.ending(
        texts.OF_CASES, "tb_lib.tb.finishes=20without=20cleanup", "ghdl_bench: the bench ended without test_runner_cleanup\n",
        "tests/tb.vhd"))],
    "*without cleanup")

# Without an end of its own, and with more output than is shown.
check_bench("no time", texts.ENDLESS, [
    ("no time", "f", texts.ending(texts.ENDLESS, "tb_lib.tb.no=20time", texts.NO_TIME, "tests/tb.vhd"))], "*no time", simulator=["ghdl_bench", "--cpu-limit=1"])
check_bench("much output", texts.ENDLESS, [("much output", "f", texts.MUCH_OUTPUT)], "*much output")
check_bench("prints and fails", texts.PRINTS_AND_FAILS, [("all", "f", ["(the last lines of ", *texts.PRINTED])])

# Without cases; a case whose name isn't a literal; nothing; cases that never start; and a folder that GHDL can't be told.
check_bench("no cases", texts.WHOLE, [("all", "p", "")])
check_bench("no cases, failing", texts.WHOLE_FAILS, [("all", "f", ["0 fs - check - ERROR - Check failed\n"])])
check_bench("no literal", texts.NO_LITERAL, [("all", "f", ["names a case that the runner doesn't know"])])
check_bench("nothing", texts.NOTHING, [
    ("all", "f", texts.ending(texts.NOTHING, "tb_lib.tb", texts.NOTHING_SAYS, "tests/tb.vhd"))])
check_bench("never started", texts.NEVER_STARTS, [("a", "s", [texts.NEVER_STARTED]), ("b", "s", "")])
project("euro", {"vunit.toml": with_ghdl({"tb_lib": ["*/tb.vhd"]}), "€/tb.vhd": texts.WHOLE})
check("a euro", "euro", ["tb_lib: €/tb.vhd"], [
    ("tb_lib.tb", "all", "f", "ghdl_bench: GHDL takes no byte 130 in a generic: rename the case, or the folder of the bench\n")])

# One simulation: where one fails, its output is shown before the first.
check_bench("in one", texts.IN_ONE_PASSES, [(name, "p", "") for name in texts.IN_ONE_CASES])
check_bench("in one, failing", texts.IN_ONE_FAILS, [
    (name, verdict, shown) for name, verdict, shown in
    zip(texts.IN_ONE_CASES, "ppfs", [["0 fs - check - ERROR - Check failed of three\n"], "", "", ""])])
text, verdicts, said = texts.IN_ONE_ERRORS[2]
check_bench("in one, errors", text, [(name, verdict, [said] if name == "one" else "")
                                     for name, verdict in zip(texts.IN_ONE_CASES, verdicts)])
check_bench("in one, some", texts.IN_ONE_FAILS.replace("count = 1", "count = 0"), [("two, too", "p", ""), ("four", "p", "")],
            "*two*", "*four")

# 1,000 cases in one simulation. A run of one of them has the same to restore and to elaborate. So what it takes less is the part
# of the simulation, by the processor time of the program and of all that it starts, since others may run.
check_bench("1,000 cases", texts.MANY, [(name, "p", "") for name in texts.MANY_CASES])


def processor_time(*words):
    before = resource.getrusage(resource.RUSAGE_CHILDREN)
    ran = run("one", *words)
    after = resource.getrusage(resource.RUSAGE_CHILDREN)
    if ran[0] != 0:
        fail("1,000 cases", f"{ran}"[-3000:])
    return after.ru_utime + after.ru_stime - before.ru_utime - before.ru_stime


used = processor_time() - processor_time(f"*{texts.MANY_CASES[0]}")
if used >= 2:
    fail("1,000 cases", f"they take {used:.2f} s of the processor more than one of them")

# Extended names.
project("extended", {"vunit.toml": with_ghdl({"lib": ["src/**/*.vhd"], "tb_lib": ["t*/*.vhd"]}),
                     **{path: text for _, path, text in texts.EXTENDED}})
check("extended names", "extended", [f"{library}: {path}" for library, path, _ in texts.EXTENDED],
      [("tb_lib.\\TB -x\\", "all", "p", "")])

# A component that is bound by default: with `-m` its entity is compiled, and the architecture of this with what it uses; a file
# that no test needs, and that GHDL would refuse, isn't.
project("bound", {"vunit.toml": with_ghdl({"tb_lib": ["*.vhd"]}), "other.vhd": texts.UNBOUND, **texts.BOUND})
check("bound by default", "bound", [f"tb_lib: {path}" for path in texts.BOUND], [("tb_lib.tb", "sees seven", "p", "")], "-m")

# Each check of the library: the passing ones in one simulation, and each failing one in one of its own.
checks = list(ghdl_check_texts.passing_and_failing())


def of_checks(name, statements):
    loop = texts.loop_of([(statement, f"{statement};") for statement in statements])
    return (ghdl_check_texts.BENCH % f"    while test_suite loop\n{loop}\n    end loop;").replace(" tb is", f" {name} is")


project("checks", {"vunit.toml": with_ghdl({"tb_lib": ["*.vhd"]}),
                   "failing.vhd": of_checks("failing", [failing for _, failing, _ in checks]),
                   "passing.vhd": texts.IN_ONE + of_checks("passing", [passing for passing, _, _ in checks])})
check("checks", "checks", ["tb_lib: failing.vhd", "tb_lib: passing.vhd"], [
    *(("tb_lib.failing", failing, "f", [f"0 fs - check - ERROR - {said}\n"]) for _, failing, said in checks),
    *(("tb_lib.passing", passing, "p", "") for passing, _, _ in checks)])
end()
