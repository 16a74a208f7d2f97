#!/bin/sh
# Each call that the program makes of the system for its tests and their report fails in turn. The fault is named, with status
# 3; nothing is printed, or where the report failed the text; no child is left; and the next run goes as if nothing had been.
. "$TOP/tests/support/needs.sh"
needs python3 strace
PYTHONPATH=$TOP/tests/support exec python3 -B - <<'END'
import ctypes, json, os, re, shutil, sys

from late_calls import is_passed_over
from trial import end, expect, fail, project, run, toml

ctypes.CDLL(None).prctl(36, 1, 0, 0, 0)  # what a program leaves running becomes a child of this process
SIMULATOR = [sys.executable, "-B", os.path.join(os.environ["TOP"], "tests", "support", "simulator.py")]
CASES = ["one", "two", "three"]
RUNS = [f"vunit_out/tests/lib.t.{case}" for case in CASES]
HERE = os.path.abspath("project")
TEXT = ("Re-compile not needed\n" + "".join(f"pass lib.t.{case}\n" for case in CASES)
        + "==== Summary\npass 3 of 3\nfail 0 of 3\nskip 0 of 3\nAll passed!\n")
SAID = {"EIO": "Input/output error (os error 5)", "ECHILD": "No child processes (os error 10)", "EAGAIN": "Resource temporarily unavailable (os error 11)",
        "EMFILE": "Too many open files (os error 24)", "ENOSPC": "No space left on device (os error 28)", "ENOMEM": "Cannot allocate memory (os error 12)"}
START = re.escape(" ".join(SIMULATOR)) + r" \(vunit_out/tests/lib\.t\.(?:one|two|three)/vunit_results\)"
SUBJECTS = {"start": START, "child": r"lib\.t\.(?:one|two|three)", "report": "new/out\\.xml"}


def left():
    """How many children were left behind, which are waited for."""
    found = 0
    try:
        while True:
            os.wait()
            found += 1
    except ChildProcessError:
        return found


def all_fail(what, calls, error, said, paths=(), slots=1, base="built", first=1, least=1, more=(), most=1000):
    """Each of these calls of a run fails, from the first on, each time from the same state."""
    number = 0
    while number < most:
        shutil.rmtree("project", ignore_errors=True)
        shutil.copytree(base, "project")
        traced = (calls if "wait4" in calls else calls + ",wait4") + ",write,?rename,?renameat,?renameat2"
        before = ["strace", "--quiet=all", "-o", "../calls", "-e", f"trace={traced}", "-e", f"inject={calls}:error={error}:when={number + first}"]
        for path in [*paths, "new/out.xml"] if paths else []:
            before += ["-P", path, "-P", os.path.join(HERE, path)]
        name = f"{base}: {calls} number {number + first} of {' and '.join(paths) or 'all'} fails, -p {slots}"
        ran = run("project", "-p", str(slots), "-x", "new/out.xml", *more, before=before)
        with open("calls") as file:
            made = file.read()
        if "(INJECTED)" not in made:
            break
        if is_passed_over(made, has_report=True):
            if ran != (0, TEXT.encode(), b""):
                fail(f"{name}, which is passed over", f"it is {ran}")
            first += 1
            continue
        number += 1
        cause = rf"vunit_run: (?:{SUBJECTS[what]}): (?:{said}): {re.escape(SAID[error])}\n"
        text = TEXT.encode() if what == "report" else b""
        if ran[:2] != (3, text) or not re.fullmatch(rf"vunit_run: fault of {what}\n{cause}", ran[2].decode()):
            fail(name, f"it is {ran}")
        # (a child whose wait failed has ended, and nothing else can wait for it)
        if (found := left()) > (calls == "wait4"):
            fail(name, f"{found} children were left")
        if os.path.exists("project/new/out.xml") or os.path.isdir("project/new") and os.listdir("project/new"):
            fail(name, f"there is {os.listdir('project/new')}")
        expect(f"{name}, and then none does", "project", 0, TEXT, "-p", "2", "-x", "new/out.xml")
    if number < least:
        fail(name, f"there are only {number} such calls")


left()  # (a shell may leave a child of its own, which hands on this text)
calls = "".join(f'x{at} <= run("{case}");\n' for at, case in enumerate(CASES))
project("built", {"vunit.toml": toml({"lib": ["t.vhd"]}, more=f"simulator = {json.dumps(SIMULATOR)}\n"),
                  "t.vhd": f"entity t is generic (runner_cfg : string); end;\narchitecture a of t is begin\n{calls}end;\n"})
expect("a first build", "built", 0, "Compiling into lib: t.vhd passed\nCompile passed\n", "--compile")
shutil.copytree("built", "project")
expect("tests", "project", 0, TEXT, "-x", "new/out.xml")
shutil.copytree("project", "tested")
shutil.rmtree("tested/new")

for slots in 1, 3:
    all_fail("start", "?mkdir,mkdirat", "EIO", "make the folder of its results", ["vunit_out/tests", *RUNS], slots, least=4)
    all_fail("start", "?unlink,unlinkat", "EIO", "remove its old results", [path + "/vunit_results" for path in RUNS], slots, "tested", least=3)
    all_fail("start", "clone,?clone3,?vfork", "EAGAIN", "start", slots=slots, least=3)
    all_fail("start", "pipe2", "EMFILE", "start", slots=slots, least=6)
    all_fail("child", "wait4", "ECHILD", "wait", slots=slots, least=3)
    # (how often it is asked for children at once depends on which of them have ended)
    # (where a summary may be told, the system is asked once more)
    all_fail("child", "poll", "ENOMEM", "poll", slots=slots, least=3 if slots == 1 else 1, more=["-q"])
    all_fail("child", "?open,openat", "EIO", "open", [path + "/vunit_results" for path in RUNS], slots, least=3)
    # (of each results file by its path and once it is open; the calls after that are those of the second look)
    all_fail("child", "statx", "EIO", "look at it", [path + "/vunit_results" for path in RUNS], slots, least=6, most=6)
    all_fail("child", "read", "EIO", "read", [path + "/vunit_results" for path in RUNS], slots, least=3)
all_fail("report", "?mkdir,mkdirat", "EIO", "make its folder", ["new"])
BESIDE = ["new/.vunit_report_0"]
all_fail("report", "?open,openat", "EIO", "make a file beside it", BESIDE)
all_fail("report", "write", "ENOSPC", "write", BESIDE)
all_fail("report", "fsync", "EIO", "write", BESIDE)
all_fail("report", "?rename,?renameat,?renameat2", "EIO", "move", BESIDE)
end()
END
