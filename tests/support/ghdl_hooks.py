"""Hooks of wrappers/ghdl_bench, with verdicts, texts and variables by hand. Works in the present folder."""

import os, shutil, signal, subprocess, time

from bench_requests import SIMULATOR, Run, build
from ghdl_generics_texts import bench

tmp = os.path.abspath("tmp")
os.mkdir(tmp)
os.environ["TMPDIR"] = tmp
HERE = os.getcwd()
# A name that no other process has.
SLEEP = f"987{os.getpid()}"
# What GHDL says of a simulation that has passed.
GOOD = "simulation finished @0ms with status 0\n"

READS = ("reads", "file_open(status, made, output_path(runner_cfg) & \"made.txt\", read_mode); check(status = open_ok, \"made.txt\");")
FAILS = ("fails", "check_failed(\"as it has to\");")
TEXT = bench("tb", "; width : integer := 1; title : string := \"\"", [READS, FAILS, ("passes", "null;")]).replace(
    "  main : process\n", "  main : process\n    use std.textio.all;\n    file made : text;\n    variable status : file_open_status;\n")
built = build([(b"tb_lib", b"tests/tb.vhd", TEXT.encode())])
SILENT = "entity tb is generic (runner_cfg : string); end entity; architecture sim of tb is begin end architecture;\n"
silent = Run(build([(b"tb_lib", b"tb.vhd", SILENT.encode())]), b"tb_lib", b"tb", b"sim", [])


def run_of(*cases, in_one=False):
    return Run(built, b"tb_lib", b"tb", b"sim", [case.encode() for case in cases], b"tests/tb.vhd", in_one)


def check(name, run, words, verdicts, text=None, code=None, holds=(), **settings):
    """Runs it, and compares verdicts, the code, and the text or parts of it."""
    got_code, output, errors = run.start(words, **settings)
    said = f"{name}: {run.verdicts()} with {got_code}: {output.decode('latin-1')} {errors}"
    assert run.verdicts() == verdicts and not errors and (code is None or got_code == code), said
    assert text is None or output == text.encode(), said
    assert all(part.encode() in output for part in holds), said
    assert not os.listdir(tmp), f"{name}: left behind: {os.listdir(tmp)}"
    assert not sleeping(), f"{name}: left running: {sleeping()}"


def sleeping():
    """The processes that sleep for the time that no other process sleeps."""
    found = []
    for name in filter(str.isdigit, os.listdir("/proc")):
        try:
            with open(f"/proc/{name}/cmdline", "rb") as file:
                if file.read().split(b"\0")[:2] == [b"sleep", SLEEP.encode()]:
                    found.append(name)
        except OSError:
            pass
    return found


def of_hook(run, log, what, printed=""):
    """The text of a case that a hook has failed: the hook's output, the message, and that in one line with the bench's
    place."""
    place = "tests/tb.vhd:7" if run is not silent else "tb.vhd:1"
    whole = f"(all of the output is in {run.folder.decode()}{log}.txt)\n"
    return f"{printed}ghdl_bench: --{log} {what}\n{whole}{place}: --{log} {what}\n"


MAKES = '--before=echo made >"$BENCH_OUTPUT_PATH/made.txt"'
check("nothing is made", run_of("reads"), [], "f", holds=["made.txt"])
check("before", run_of("reads"), [MAKES], "p", GOOD, 0)
check("the folder is emptied first", run_of("reads"), [], "f", holds=["made.txt"])
check("before, in the project's folder", run_of("reads"), ["--before=cp tests/data.txt vunit_out/tests/tb_lib.tb.reads/made.txt"], "f",
      code=1, holds=["cp: cannot stat", "ghdl_bench: --before ended with 1: cp tests/data.txt vunit_out/tests/tb_lib.tb.reads/made.txt\n"])
os.makedirs("tests", exist_ok=True)
with open("tests/data.txt", "w", encoding="ascii") as file:
    file.write("made\n")
check("the same, with the file", run_of("reads"), ["--before=cp tests/data.txt vunit_out/tests/tb_lib.tb.reads/made.txt"], "p", GOOD, 0)

# A failed hook has its text shown, and nothing is simulated after one that came before.
failing = run_of("passes")
check("before fails", failing, ["--before=echo why; exit 3", "--after=echo >after.seen"], "f",
      of_hook(failing, "before", "ended with 3: echo why; exit 3", "why\n"), 1)
assert not os.path.exists("after.seen") and os.path.getsize(failing.folder + b"output.txt") == 0
check("the first that fails", failing, ["--before=echo one", "--before=echo two; exit 75", "--before=echo three"], "f",
      of_hook(failing, "before", "ended with 75: echo two; exit 75", "one\ntwo\n"), 1)
check("after fails what passed", failing, ["--after=echo wrong; exit 1"], "f",
      of_hook(failing, "after", "ended with 1: echo wrong; exit 1", "wrong\n"), 1)
check("after fails what failed", run_of("fails"), ["--after=exit 1"], "f", code=1,
      holds=["check - ERROR - as it has to", "ghdl_bench: --after ended with 1: exit 1\n", "tests/tb.vhd:19: as it has to\n"])
check("after all in one", run_of("passes", "reads", in_one=True), [MAKES, "--after=exit 1"], "ff", code=1)
check("some in one", run_of("passes", "fails", in_one=True), [], "pf")
check("after some in one", run_of("passes", "fails", in_one=True), ["--after=exit 1"], "ff", holds=["tests/tb.vhd:19: as it has to\n"])
check("after, well", run_of("passes", "reads", in_one=True), [MAKES, "--after=exit 0"], "pp", GOOD, 0)
check("a signal", failing, ["--before=kill -9 $$"], "f", of_hook(failing, "before", "was ended by signal 9: kill -9 $$"), 1)
check("a long command", failing, ["--before=exit 1 # " + "x" * 3000], "f",
      of_hook(failing, "before", "ended with 1: exit 1 # " + "x" * 191 + " .."), 1)
check("results of a hook", silent, ["--before=echo test_suite_done >vunit_out/tests/tb_lib.tb/vunit_results"], "f",
      holds=["ghdl_bench: the bench ended without test_runner_setup: there are no results\n"])

# What a hook is told.
SEEN = "--after=env | grep ^BENCH_ | sort >seen.txt"


def told(case, verdict, **more):
    name = f"tb_lib.tb.{case}" if case else "tb_lib.tb"
    values = {"BENCH_CASES": case or "passes", "BENCH_CONFIGURATION": "", "BENCH_LIBRARY": "tb_lib", "BENCH_NAME": "tb",
              "BENCH_OUTPUT_PATH": f"{HERE}/vunit_out/tests/{name}/", "BENCH_PROJECT": HERE, "BENCH_TB_PATH": f"{HERE}/tests/",
              "BENCH_VERDICT": verdict, **more}
    return [f"{name}={values[name]}" for name in sorted(values)]


def seen():
    with open("seen.txt", encoding="utf-8") as file:
        return file.read().splitlines()


check("told of a pass", run_of("passes"), [SEEN, "-gwidth=3", "-gtitle=a b"], "p", GOOD, 0)
assert seen() == told("passes", "pass", BENCH_GENERIC_title="a b", BENCH_GENERIC_width="3"), seen()
check("told of a failure", run_of("fails"), [SEEN], "f")
assert seen() == told("fails", "fail"), seen()
check("told of a configuration", run_of("passes"), [SEEN, "--configuration=wide, \u20ac", "-gwidth=9"], "p", GOOD, 0)
assert seen() == told("passes", "pass", BENCH_CONFIGURATION="wide, \u20ac", BENCH_GENERIC_width="9"), seen()
check("told of two cases", run_of("passes", "reads", in_one=True), ["--before=printf %s \"$BENCH_CASES\" >seen.txt; exit 1"], "ff")
assert seen() == ["passes", "reads"], seen()

# Limits, each by name. (A hook has the limits of the bench for itself.)
ENDED = "was ended, since it "
check("hangs", failing, [f"--before=sleep {SLEEP}", "--wall-limit=1"], "f",
      of_hook(failing, "before", f"{ENDED}took over 1 seconds: sleep {SLEEP}"), 1)
check("hangs after", run_of("passes"), [f"--after=sleep {SLEEP}", "--wall-limit=1"], "f", code=1,
      holds=[f"ghdl_bench: --after was ended, since it took over 1 seconds: sleep {SLEEP}\n"])
check("works", failing, ["--before=while :; do :; done", "--cpu-limit=1"], "f",
      of_hook(failing, "before", f"{ENDED}took over 1 seconds of processor time: while :; do :; done"), 1)
printing = run_of("passes")
check("prints", printing, ["--before=head -c 100000000 /dev/zero | tr '\\0' x"], "f", code=1,
      holds=[f"ghdl_bench: --before {ENDED}printed over 67108864 bytes: head -c 100000000 /dev/zero | tr '\\0' x\n"])
os.remove(printing.folder + b"before.txt")
check("leaves processes", run_of("reads"), [f"--before=sleep {SLEEP} & setsid sleep {SLEEP} & (setsid sleep {SLEEP} >/dev/null &) ; "
                                            'echo made >"$BENCH_OUTPUT_PATH/made.txt"'], "p", GOOD, 0)
check("leaves processes after", run_of("passes"), [f"--after=setsid sh -c 'sleep {SLEEP} & sleep {SLEEP}' & sleep 0.2"], "p", GOOD, 0)

# The runner's end, and the wrapper's, end a hook with all that it has started.
waiting = run_of("passes")
waiting.prepare()
for number in (signal.SIGKILL, signal.SIGTERM, signal.SIGINT):
    child = subprocess.Popen([SIMULATOR, f"--before=setsid sleep {SLEEP} & sleep {SLEEP}"], stdin=subprocess.PIPE,
                             stdout=subprocess.DEVNULL)
    child.stdin.write(waiting.request())
    child.stdin.close()
    until = time.monotonic() + 60
    while len(sleeping()) < 2 and time.monotonic() < until:
        time.sleep(0.02)
    assert len(sleeping()) == 2, "the hook didn't start"
    child.send_signal(number)
    child.wait(timeout=60)
    while (sleeping() or os.listdir(tmp)) and time.monotonic() < until:
        time.sleep(0.02)
    assert not sleeping() and not os.listdir(tmp), f"signal {number} left {sleeping()}, {os.listdir(tmp)}"

# Without sh in PATH there is no answer; with too much to be told the case fails.
os.mkdir("bin")
os.symlink(shutil.which("ghdl"), "bin/ghdl")
os.symlink(os.path.realpath(shutil.which("python3", path="/usr/bin:" + os.environ["PATH"])), "bin/python3")
no_shell = run_of("passes")
got = no_shell.start(["--before=true"], env={**os.environ, "PATH": os.path.abspath("bin")})
assert got == (75, b"", b"ghdl_bench: there is no command sh\n"), got
LONG = "y" * 131_060
check("too much to tell", run_of("passes"), ["--before=true", f"-gtitle={LONG}"], "f",
      "ghdl_bench: a hook would be told a text of 131080 bytes, which is more than a command takes\n", 1)
if os.sysconf("SC_ARG_MAX") == 2_097_152:
    many = Run(built, b"tb_lib", b"tb", b"sim", [b"x" * 130_000], b"tests/tb.vhd", True)
    check("too many words", many, [*(f"-W{count:02}{'y' * 131_000}" for count in range(15)), f"-gtitle={'y' * 100_000}"], "f",
          "ghdl_bench: the words for ghdl are more than a command takes\n", 1)
