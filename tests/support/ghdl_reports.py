"""Reports of runs with GHDL: by the program and vunit_report around it, of a run that is killed, of one bench after all, and over
wrappers/over_engine, with names, verdicts and messages by hand. Works in the present folder."""

import itertools, os, re, shutil, signal, subprocess, time
from xml.etree import ElementTree

from ghdl_bench_texts import IN_ONE, bench, loop_of
from ghdl_trial import TMP, with_ghdl
from junit_schema import is_red, read_checked, rows_of
from trial import PROGRAM, project, run, write

REPORT = os.path.join(os.environ["TOP"], "wrappers", "vunit_report")
# A failing check, at a line that is known; a case that is never started; one simulation of three cases.
SINGLE = bench(loop_of([("passes", "check(true);"), ("fails", "check_equal(1, 2, result(\"of <ones>\"));")]))
SAME = IN_ONE + bench(loop_of([("one", "check(true);"), ("two", "check(false);"), ("three", "check(true);")]))
WHOLE = bench("      info(\"all is well\");")
ROWS = [("tb_lib.same", "one", "passed"), ("tb_lib.same", "two", "failure"), ("tb_lib.same", "three", "skipped"),
        ("tb_lib.single", "passes", "passed"), ("tb_lib.single", "fails", "failure"), ("tb_lib.whole", "all", "passed")]


def named(text, name):
    return text.replace(" tb is", f" {name} is")


def line_of(text, part):
    return 1 + text[: text.index(part)].count("\n")


def around(*words, report="out.xml", **variables):
    """Status and output of the program with a report around it, and the report."""
    if os.path.exists(f"tests/{report}"):
        os.remove(f"tests/{report}")
    ran = subprocess.run([REPORT, "--around", report, PROGRAM, *words], cwd="tests", capture_output=True, text=True,
                         env={**os.environ, **variables})
    assert not os.listdir(TMP), os.listdir(TMP)
    return ran.returncode, ran.stdout, read_checked(f"tests/{report}")


def element(root, name):
    return next(case for case in root.iter("testcase") if case.get("name") == name)


def is_right(root):
    """A report of all tests: verdicts, messages, outputs and times."""
    assert rows_of(root) == ROWS, rows_of(root)
    fails, two = element(root, "fails"), element(root, "two")
    message = f'tb/single.vhd:{line_of(SINGLE, "check_equal(1, 2")}: Equality check failed of <ones> - Got 1. Expected 2.'
    assert fails.find("failure").get("message") == message, ElementTree.tostring(fails)
    assert two.find("failure").get("message") == f'tb/same.vhd:{line_of(SAME, "check(false)")}: Check failed'
    assert fails.findtext("system-out").startswith("0 fs - check - ERROR - Equality check failed of <ones>"), fails
    assert "  from: vunit_lib.check_pkg" in fails.findtext("system-out")
    assert element(root, "all").find("system-out") is None
    assert all(0 < float(case.get("time")) < 60 for case in root.iter("testcase") if case.find("skipped") is None)
    # (three seconds of a simulation are one of each case that was started)
    assert element(root, "one").get("time") == two.get("time")


def whole_runs():
    status, text, root = around("-p", "2", "-q")
    assert status == 1 and "fail 2 of 6" in text and "skip 1 of 6" in text, text
    is_right(root)
    # The same cases and verdicts as -x has, of this run and of the program alone.
    status, _, root = around("-x", "own.xml", "-q")
    assert status == 1 and rows_of(root) == rows_of(ElementTree.parse("tests/own.xml").getroot()) == ROWS
    is_right(root)
    # With --fail-fast what wasn't started is skipped, as in -x.
    status, _, root = around("--fail-fast", "-q", "-xown.xml")
    assert status == 1 and rows_of(root) == rows_of(ElementTree.parse("tests/own.xml").getroot())
    assert [row[2] for row in rows_of(root)] == ["passed", "failure", "skipped", "skipped", "skipped", "skipped"]
    # One bench alone after all: nothing of the others comes in.
    status, _, root = around("-q", "tb_lib.whole.*")
    assert status == 0 and rows_of(root) == [ROWS[5]] and not is_red(root)
    status, _, root = around("-q", "--exit-0")
    assert status == 0 and is_red(root) and rows_of(root) == ROWS


def by_hand():
    """The user exports the tests, runs the program with a number, and reports."""
    for number, (patterns, wanted) in enumerate([([], ROWS), (["*.passes", "*.one"], [ROWS[0], ROWS[3]])]):
        assert run("tests", "--export-json", "selected.json", *patterns)[0] == 0
        # (by the second the launcher takes a number that is given)
        numbers = dict.fromkeys(("VUNIT_RUN_ID", "VUNIT_REPORT_RUN"), f"by hand {number}")
        status, _, _ = run("tests", "-q", *patterns, env={**os.environ, **numbers})
        subprocess.run([REPORT, "--export", "selected.json", "out.xml"], cwd="tests", check=True)
        assert rows_of(root := read_checked("tests/out.xml")) == wanted and is_red(root) == (status == 1), rows_of(root)
    subprocess.run([REPORT, "--export", "selected.json", "--run", "by hand 1", "out.xml"], cwd="tests", check=True)
    assert rows_of(read_checked("tests/out.xml")) == [ROWS[0], ROWS[3]]
    # (the data of the first run are in the folder of one bench alone now)
    subprocess.run([REPORT, "--export", "selected.json", "--run", "by hand 0", "out.xml"], cwd="tests", check=True)
    assert is_red(read_checked("tests/out.xml"))


def refused():
    """A file that doesn't compile: no test was run, and none is green."""
    with open("tests/tb/whole.vhd", "a") as file:
        file.write("entity wrong is port (p : in nothing_of_that_name); end;\n")
    status, text, root = around("-q")
    assert status == 1 and "Compile failed" in text and is_red(root), text
    assert rows_of(root)[-1] == ("vunit_run", "run was cut off after 0 of 6 tests", "error")
    assert {verdict for *_, verdict in rows_of(root)} == {"error"}
    with open("tests/tb/whole.vhd", "w") as file:
        file.write(named(WHOLE, "whole"))


def killed():
    """Nine tests, of which some three have ended when the run is killed: by a signal to all, to the program, or to the reporter."""
    project("killed", {"vunit.toml": with_ghdl({"tb_lib": ["tb.vhd"]}), "tb.vhd": bench(loop_of(
        [(f"test {number}", "check(true);") for number in range(9)]))})
    assert run("killed", "--compile")[0] == 0
    green = "".join(f'<testcase classname="tb_lib.tb" name="test {number}"/>' for number in range(9))
    ways = "TERM to the reporter", "KILL to the program", "KILL to the reporter"
    # (an -x of an earlier run says nothing, also where it is the file of the report)
    for by, words in itertools.product(ways, ((), ("-x", "own.xml"), ("--xunit-xml=out.xml",))):
        shutil.rmtree("killed/vunit_out/tests", ignore_errors=True)
        for path in ("own.xml", "out.xml"):
            write("killed", {path: f'<testsuite name="testsuite" tests="9" failures="0" skipped="0" errors="0">{green}</testsuite>\n'})
        child = subprocess.Popen([REPORT, "--around", "out.xml", PROGRAM, *words], cwd="killed", stdout=subprocess.DEVNULL,
                                 preexec_fn=lambda: signal.signal(signal.SIGTERM, signal.SIG_DFL))
        while sum(os.path.exists(f"killed/vunit_out/tests/tb_lib.tb.test=20{number}/run.txt") for number in range(9)) < 3:
            time.sleep(0.005)
            assert child.poll() is None, by
        if by == "KILL to the program":
            (program,) = subprocess.run(["pgrep", "-P", str(child.pid)], capture_output=True, text=True).stdout.split()
            os.kill(int(program), signal.SIGKILL)
        else:
            child.send_signal(signal.SIGTERM if by.startswith("TERM") else signal.SIGKILL)
        assert child.wait(30) in (-signal.SIGTERM, -signal.SIGKILL), (by, child.returncode)
        rows = rows_of(root := read_checked("killed/out.xml"))
        assert is_red(root) and len(rows) == 10, (by, rows)
        ended = sum(verdict == "passed" for *_, verdict in rows)
        assert rows[-1] == ("vunit_run", f"run was cut off after {ended} of 9 tests", "error"), (by, rows[-1])
        assert ended == 0 if by == "KILL to the reporter" else 3 <= ended < 9, (by, ended)
        # By its data a report of a killed run names the ended tests.
        until = time.monotonic() + 20
        while os.listdir(TMP) and time.monotonic() < until:
            time.sleep(0.01)
        subprocess.run([REPORT, "--xunit", "own.xml", "out.xml"], cwd="killed", check=True)
        rows = rows_of(root := read_checked("killed/out.xml"))
        assert is_red(root) and re.fullmatch("run was cut off after [3-8] of 9 tests", rows[-1][1]), (by, rows)


def on_another_machine():
    """Over an engine the same report, and the log beside the results."""
    os.mkdir("cluster")
    os.symlink(os.path.join(os.environ["TOP"], "wrappers", "over_engine"), "cluster/ghdl_bench")
    path = os.pathsep.join([os.path.abspath("cluster"), os.environ["PATH"]])
    # (an engine that hands on no variables)
    node = f"env -i PATH={os.environ['PATH']} TMPDIR={TMP}"
    with open("tests/vunit_out/tests/tb_lib.whole/output.txt", "w") as file:
        file.write("of an earlier run\n")
    status, text, root = around("-p", "4", "-q", PATH=path, OVER_ENGINE=node)
    assert status == 1 and "fail 2 of 6" in text, text
    is_right(root)
    with open("tests/vunit_out/tests/tb_lib.whole/output.txt") as file:
        assert file.read() == "0 fs - default - INFO - all is well\nsimulation finished @0ms with status 0\n"
    # A log over the limit comes back with its end, and a log that isn't there takes an old one away.
    limit, count = 4_194_304, 150_000
    text = bench(f"      for number in 1 to {count} loop\n        info(\"number \" & to_string(number));\n      end loop;\n"
                 "      check(false);")
    project("long", {"vunit.toml": with_ghdl({"tb_lib": ["tb.vhd"]}), "tb.vhd": text})
    assert run("long", "-q", env={**os.environ, "PATH": path, "OVER_ENGINE": node})[0] == 1
    with open("long/vunit_out/tests/tb_lib.tb/output.txt") as file:
        log = file.read()
    size = int(re.match(r"\(the last 4194304 bytes of (\d+)\)\n", log)[1])
    assert size > limit and len(log) < limit + 100 and "ERROR - Check failed" in log[-2_000:] and log.endswith("simulation failed\n")


project("tests", {"vunit.toml": with_ghdl({"tb_lib": ["tb/*.vhd"]}), "tb/single.vhd": named(SINGLE, "single"),
                  "tb/same.vhd": named(SAME, "same"), "tb/whole.vhd": named(WHOLE, "whole")})
whole_runs()
by_hand()
refused()
killed()
on_another_machine()
