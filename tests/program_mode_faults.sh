#!/bin/sh
# Each call of the system for its sources, its store, its children, its output and its report fails in turn, in each mode. The
# modes are lists of files and tests, an export, a build that empties the store, one that goes on after a refused file, and runs
# of tests with and without a report. The fault is named, with status 3. Nothing is printed, or the beginning of the text if the
# output failed, or the whole text if the report did. Lists change nothing, and no child is left. The next run is done and
# compiles exactly the files without a current record.
. "$TOP/tests/support/needs.sh"
needs python3 tomllib strace
PYTHONPATH=$TOP/tests/support exec python3 -B - <<'END'
import ctypes, json, os, re, shutil, subprocess, sys

from store_reader import records_of
from late_calls import is_passed_over
from told import without_told
from trial import COMPILER, PROGRAM, build_text, end, environment, expect, fail, package, project, stale_of, started_in, toml

ctypes.CDLL(None).prctl(36, 1, 0, 0, 0)  # what a program leaves running becomes a child of this process
HERE = os.path.abspath("project")
SIMULATOR = [sys.executable, "-B", os.path.join(os.environ["TOP"], "tests", "support", "simulator.py")]
SAID = {"EIO": "Input/output error (os error 5)", "ECHILD": "No child processes (os error 10)", "EAGAIN": "Resource temporarily unavailable (os error 11)",
        "ENOSPC": "No space left on device (os error 28)"}
BENCH = 'entity t is generic (runner_cfg : string); end;\narchitecture a of t is begin\nx <= run("one");\ny <= run("two");\nend;\n'
FILES = {"p.vhd": package("p"), "t.vhd": BENCH, "u.vhd": package("u", "work.p")}
FILES["vunit.toml"] = toml({"lib": ["*.vhd"]}, COMPILER, more=f"simulator = {json.dumps(SIMULATOR)}\n")
ALL = [(b"lib", name.encode()) for name in ("p.vhd", "t.vhd", "u.vhd")]
TESTS = "pass lib.t.one\npass lib.t.two\n==== Summary\npass 2 of 2\nfail 0 of 2\nskip 0 of 2\nAll passed!\n"
LISTED = "lib, p.vhd\nlib, t.vhd\nlib, u.vhd\nListed 3 files\n"
# The words of each mode, what it prints, its report, and whether it builds.
MODES = [("-f", LISTED, None, False), ("-l", "lib.t.one\nlib.t.two\nListed 2 tests\n", None, False), ("--export-json new/out", "", "new/out", False),
         ("--compile --clean", build_text(ALL), None, True), ("--compile -k -p 3", build_text([ALL[0], ALL[2]]), None, True),
         ("-p 1", build_text([ALL[0], ALL[2]]) + TESTS, None, True), ("-p 3 -x new/out", build_text([ALL[0], ALL[2]]) + TESTS, "new/out", True)]
# The object, the calls, how one fails, whose calls, and the message. A report is written beside its place first.
OPEN, MAKE, START = "?open,openat", "?mkdir,mkdirat", "clone,?clone3,?vfork"
STORE, BESIDE = ["vunit_out", "vunit_out/store_a", "vunit_out/store_b"], ["new/.vunit_report_0"]
CALLS = [("tree", OPEN, "EIO", ["vunit.toml"], "open"), ("tree", "read", "EIO", ["t.vhd"], "read"), ("tree", "getdents64", "EIO", ["."], "list"),
         ("disk", OPEN, "EIO", STORE, "open"), ("disk", "flock", "EIO", STORE, "lock"), ("disk", "pread64", "EIO", STORE, "read"),
         ("disk", "pwrite64", "ENOSPC", STORE, "write"), ("disk", "fdatasync", "EIO", STORE, "sync"), ("disk", "ftruncate", "EIO", STORE, "cut"),
         ("start", START, "EAGAIN", [], "start"), ("child", "wait4", "ECHILD", [], "wait"), ("out", "write", "EIO", ["../said"], "write"),
         ("report", MAKE, "EIO", ["new"], "make its folder"), ("report", OPEN, "EIO", BESIDE, "make a file beside it"),
         ("report", "write", "ENOSPC", BESIDE, "write"), ("report", "?rename,?renameat,?renameat2", "EIO", BESIDE, "move")]


def left():
    """How many children were left behind, which are waited for."""
    found = 0
    try:
        while True:
            os.wait()
            found += 1
    except ChildProcessError:
        return found


def files_of(folder):
    """The bytes of each file, but for results of tests."""
    found = {}
    for at, _, names in os.walk(folder):
        for name in names:
            if "/tests/" not in at + "/":
                with open(os.path.join(at, name), "rb") as file:
                    found[os.path.join(at, name)] = file.read()
    return found


def is_late(made, paths, has_report):
    """Whether the call that failed is one that a run passes over; None where it is one of the report, which marks the end."""
    if paths != BESIDE and any("(INJECTED)" in line and BESIDE[0] in line for line in made.splitlines()):
        return None
    return is_passed_over(made, has_report)


def traced(words, report, calls, error, number, paths):
    """Status, standard output and standard error of a run of which one of these calls fails, whether there was such a call, and
    whether it is one that a run passes over."""
    before = ["strace", "--quiet=all", "-o", "../calls",
              "-e", f"trace={calls},write,?open,openat,?rename,?renameat,?renameat2" + ("" if "wait4" in calls else ",wait4"),
              "-e", f"inject={calls}:error={error}:when={number}"]
    marks = [] if not paths or calls == "write" else BESIDE if report else ["../said"]
    for path in [*paths, *marks]:
        before += ["-P", path, "-P", os.path.normpath(os.path.join(HERE, path))]
    with open("said", "wb") as said:
        ran = subprocess.run([*before, PROGRAM, *words], cwd="project", env=environment("requests"), stdin=subprocess.DEVNULL, stdout=said,
                             stderr=subprocess.PIPE, timeout=120)
    with open("said", "rb") as said, open("calls") as file:
        made = file.read()
        return (ran.returncode, said.read().decode(), without_told(ran.stderr).decode(), "(INJECTED)" in made,
                is_late(made, paths, bool(report)))


def all_fail(mode, text, report, builds, what, calls, error, paths, call):
    """Each of these calls of a mode fails, from the first on, each time from the same state. Gives how many there are."""
    words, number, late = mode.split(), 0, 0
    while True:
        shutil.rmtree("project", ignore_errors=True)
        shutil.copytree("edited" if builds else "built", "project")
        before, records = files_of("project"), records_of("project")
        name = f"{mode}: {calls} number {number + late + 1} of {' and '.join(paths) or 'all'} fails"
        status, said, told, was_made, passes = traced(words, report, calls, error, number + late + 1, paths)
        if not was_made:
            return number
        if passes is None:
            late += 1
            continue
        if passes:
            if (status, said, told) != (0, text, ""):
                fail(f"{name}, which is passed over", f"it ended with {status}, printed {said!r} and said {told!r}")
            late += 1
            continue
        number += 1
        wanted = {"out": text.startswith(said), "report": said == text}.get(what, said == "")
        if status != 3 or not wanted or not re.fullmatch(rf"vunit_run: fault of {what}\nvunit_run: [^\n]*: {call}: {re.escape(SAID[error])}\n", told):
            fail(name, f"it ended with {status}, printed {said!r} and said {told!r}")
        # (a child whose wait failed has ended, and nothing else can wait for it)
        if (found := left()) > (calls == "wait4"):
            fail(name, f"{found} children were left")
        after = files_of("project")
        if report and what != "out" and os.path.exists("project/" + report) or not builds and what != "out" and after != before:
            fail(name, f"there are {sorted(after)}, before it {sorted(before)}")
        if "--clean" not in words and records_of("project")[: len(records)] != records:
            fail(name, "a record is lost")
        stale = stale_of("project")
        expect(f"{name}, and then none does", "project", 0, build_text(stale), "--compile", env=environment("requests"))
        if started_in("requests") != stale:
            fail(name, f"then {started_in('requests')} were started, and not {stale}")


left()  # (a shell may leave a child of its own, which hands on this text)
project("project", FILES)
expect("a first build", "project", 0, build_text(ALL), "--compile")
shutil.copytree("project", "built")
shutil.copytree("project", "edited")
with open("edited/p.vhd", "a") as file:
    file.write("-- more\n")
for mode, text, report, builds in MODES:
    shutil.rmtree("project")
    shutil.copytree("edited" if builds else "built", "project")
    expect(mode, "project", 0, text, *mode.split())
    counts = {what: 0 for what, *_ in CALLS}
    for what, *of in CALLS:
        counts[what] += all_fail(mode, text, report, builds, what, *of)
    # (what reads and lists sources, and for a build what opens, locks and reads a store, starts a compiler and waits for it)
    least = {"tree": 3, "out": 1 if text else 0, "report": 4 if report else 0, **{what: 3 if builds else 0 for what in ("start", "child")}}
    least["disk"] = 12 if builds else 0
    if mode.startswith("--compile -k"):
        least |= {"start": 2, "child": 2}
    for what, count in least.items():
        if counts[what] < count or not count and counts[what]:
            fail(mode, f"{counts[what]} calls of {what} failed")
end()
END
