#!/bin/sh
# Each call that the program makes of the system for its sources, its store, its children and its output fails in turn. The
# fault is named, with status 3 and nothing printed; what was recorded stays; what was under way is recorded; and the next
# run compiles exactly the files without a current record.
. "$TOP/tests/support/needs.sh"
needs python3 tomllib strace
PYTHONPATH=$TOP/tests/support exec python3 -B - <<'END'
import os, re, shutil, subprocess, time

from store_reader import read_request, records_of
from late_calls import is_passed_over
from trial import COMPILER, PROGRAM, build_text, end, environment, expect, fail, package, project, run, stale_of, started_in, toml, write

FILES = {"p.vhd": package("p"), "u.vhd": package("u", "work.p"), "v.vhd": package("v"), "w.vhd": package("w")}
FILES["vunit.toml"] = toml({"lib": ["*.vhd"]}, COMPILER)
P, U, V, W = ALL = [(b"lib", b"%c.vhd" % letter) for letter in b"puvw"]
STORE = ["vunit_out", "vunit_out/store_a", "vunit_out/store_b"]
HERE = os.path.abspath("project")
SAID = {"EIO": "Input/output error (os error 5)", "ECHILD": "No child processes (os error 10)", "ENOMEM": "Cannot allocate memory (os error 12)",
        "EAGAIN": "Resource temporarily unavailable (os error 11)", "EMFILE": "Too many open files (os error 24)",
        "ENOTTY": "Inappropriate ioctl for device (os error 25)"}
# What a cause is of.
SUBJECTS = {"tree": r"vunit\.toml|p\.vhd|\.", "disk": r"vunit_out(?:/store_[ab])?|\.", "child": r"lib, [puvw]\.vhd", "start": re.escape(" ".join(COMPILER))}


def failing(calls, error, number, paths):
    """A command that starts a program of which one of these calls fails, of those of these paths where some are given."""
    traced = (calls if "wait4" in calls else calls + ",wait4") + ",write,?open,openat"
    paths = [*paths, "../text"] if paths else []
    command = ["sh", "-c", 'exec "$@" >../text', "sh", "strace", "--quiet=all", "-o", "../calls", "-e", f"trace={traced}", "-e", f"inject={calls}:error={error}:when={number}"]
    for path in paths:
        command += ["-P", path, "-P", os.path.normpath(os.path.join(HERE, path))]
    return command


def check(name, what, before, after, wanted, words):
    """What a run with a fault left, where these are the records and what is stale before it and after it."""
    started = started_in("requests")
    if after[0][:len(before[0])] != before[0]:
        fail(name, f"of the records {before[0]}\nthere are left {after[0]}")
    # (a record may be there though its last sync failed)
    added = len(after[0]) - len(before[0])
    if what == "tree" and started or what == "disk" and (started != before[1][:len(started)] or len(started) - added not in (0, 1)):
        fail(name, f"it started {started}")
    if wanted is not None and after[1] != wanted:
        fail(name, f"without a record are {after[1]}, and not {wanted}")
    expect(f"{name}, and then none does", "project", 0, build_text(after[1]), "--compile", env=environment("requests"))
    if started_in("requests") != after[1]:
        fail(name, f"then {started_in('requests')} were started, and not {after[1]}")
    expect(f"{name}, and once more", "project", 0, build_text([]), "--compile")


def lost_in(calls):
    """The file whose child was lost: the first that was waited for from the call on that failed. Its process has left its
    request under its number."""
    _, _, after = calls.partition("(INJECTED)")
    line = next(line for line in calls.splitlines() if "(INJECTED)" in line)
    found = re.search(r"wait4\((\d+)", line) or re.search(r"wait4\((\d+)", after)
    for name in os.listdir("requests"):
        if name.endswith("." + found[1]):
            with open(os.path.join("requests", name), "rb") as file:
                return read_request(file.read())[:2]


def all_fail(state, what, calls, error="EIO", paths=(), slots=1, wanted=(), call=None, first=1, more=()):
    """Each of these calls of a build fails, from the first on, each time from the same state. Where it is given, that is what
    has no record after each. Of several children at once it depends on the one that was lost."""
    number = 0
    while True:
        shutil.rmtree("project", ignore_errors=True)
        shutil.copytree(state, "project")
        before = records_of("project"), stale_of("project")
        words = ["--compile", "-p", str(slots), *more]
        name = f"{state}: {calls} number {number + first} of {' and '.join(paths) or 'all'} fails, {' '.join(words)}"
        ran = run("project", *words, env=environment("requests"), before=failing(calls, error, number + first, paths))
        with open("calls") as file, open("text", "rb") as text:
            traced, ran = file.read(), (ran[0], text.read(), ran[2])
        if "(INJECTED)" not in traced:
            break
        if is_passed_over(traced):
            if ran != (0, build_text(before[1]).encode(), b""):
                fail(f"{name}, which is passed over", f"it is {ran}")
            first += 1
            continue
        number += 1
        cause = rf"vunit_run: (?:{SUBJECTS[what]}): (?:{call or calls}): {re.escape(SAID[error])}\n"
        if ran[:2] != (3, b"") or not re.fullmatch(rf"vunit_run: fault of {what}\n{cause}", ran[2].decode()):
            fail(name, f"it is {ran}")
        after = records_of("project"), stale_of("project")
        left = wanted[number - 1] if number <= len(wanted) else None
        if what == "child" and slots > 1:
            started, lost = started_in("requests"), lost_in(traced)
            left = [file for file in before[1] if file == lost or file not in started]
        check(name, what, before, after, left, words)
    if number < max(1, len(wanted)):
        fail(name, "there is no such call")


project("new", FILES)
project("project", FILES)
expect("a first build", "project", 0, build_text(ALL), "--compile", env=environment("requests"))
write("project", {"p.vhd": FILES["p.vhd"] + "-- more\n"})
shutil.copytree("project", "edited")

OPEN, MAKE, START = "?open,openat", "?mkdir,mkdirat", "clone,?clone3,?vfork"
# (the calls of the system for the disk, one by one)
OF_DISK = {MAKE: "make", OPEN: "open|sync", "flock": "lock", "ftruncate": "cut", "fsync": "sync", "pread64": "read", "pwrite64": "write",
           "fdatasync": "sync", "statx": "open|stat|write|cut"}
for path in "vunit.toml", "p.vhd":
    all_fail("edited", "tree", OPEN, paths=[path], call="open")
    all_fail("edited", "tree", "read", paths=[path])
all_fail("edited", "tree", "getdents64", paths=["."], call="list")
all_fail("edited", "tree", "statx", paths=["p.vhd"], call="look at an entry")
for calls in MAKE, OPEN, "flock", "ftruncate", "fsync":
    all_fail("new", "disk", calls, paths=STORE, call=OF_DISK[calls])
for calls in "pwrite64", "fdatasync":
    all_fail("new", "disk", calls, paths=STORE, call=OF_DISK[calls])
for calls in MAKE, OPEN, "statx", "flock", "fsync", "pread64", "pwrite64", "fdatasync":
    # (the listing looks at the store's folder before the disk does)
    all_fail("edited", "disk", calls, paths=STORE, call=OF_DISK[calls], first=2 if calls == "statx" else 1)

# A child that is lost, and one that can't be started: what is in flight is waited for and recorded, and nothing more is
# started. Of three at once the first are p, v and w, and u follows the end of p.
all_fail("new", "child", "wait4", "ECHILD", slots=1, wanted=[ALL, [U, V, W], [V, W], [W]], call="wait")
all_fail("new", "start", START, "EAGAIN", slots=1, wanted=[ALL, [U, V, W], [V, W], [W]], call="start")
all_fail("new", "child", "wait4", "ECHILD", slots=3, call="wait")
all_fail("new", "start", START, "EAGAIN", slots=3, wanted=[ALL, [U, V, W], [U, W], [U]], call="start")
all_fail("new", "start", "pipe2", "EMFILE", slots=3, call="start")
all_fail("edited", "child", "wait4", "ECHILD", slots=3, call="wait")

# What the system is asked of the outputs, and what makes an input not wait. (The first ioctl asks for a terminal.)
# (but where a summary may be told, it is asked once more)
all_fail("new", "child", "poll", "ENOMEM", slots=1, more=["-q"])
all_fail("new", "child", "poll", "ENOMEM", slots=3, more=["-q"])
all_fail("new", "start", "ioctl", "ENOTTY", slots=1, wanted=[ALL, [U, V, W], [V, W], [W]], first=2)

# After a failed call of the disk the store stays locked until the compilers that run have ended.
project("project", FILES)
slow = subprocess.Popen([*failing("pwrite64", "EIO", 6, STORE), PROGRAM, "--compile", "-p", "2"], cwd="project", env=environment("requests", 2),
                        stdin=subprocess.DEVNULL, stdout=subprocess.PIPE, stderr=subprocess.PIPE)
until = time.monotonic() + 20
while len(started_in("requests")) < 3 and time.monotonic() < until:
    time.sleep(0.01)
locked = "vunit_run: fault of disk\nvunit_run: vunit_out/store_a: lock: another run has locked it\n"
seen = 0
while slow.poll() is None:
    with open("calls") as file:
        has_failed = "(INJECTED)" in file.read()
    ran = run("project", "--compile", env=environment("beside"))
    if ran == (3, b"", locked.encode()):
        seen += has_failed
        continue
    # (the run has just ended: it gives one lock back after the other, and its process is there a moment longer)
    try:
        slow.wait(1)
    except subprocess.TimeoutExpired:
        fail("a second run after a failed call", f"it is {ran}")
if slow.returncode != 3 or not seen:
    fail("a failed call while compilers run", f"{slow.communicate()}, and it was looked at {seen} times")

# A build whose one compiler takes a second asks the system for its output a few times, and not all the time.
project("project", {"p.vhd": FILES["p.vhd"], "vunit.toml": FILES["vunit.toml"]})
counting = ["strace", "--quiet=all", "-o", "../calls", "-e", "trace=poll"]
expect("a compiler that takes a second", "project", 0, build_text([P]), "--compile", env=environment("requests", 1), before=counting)
with open("calls") as file:
    polls = sum(line.startswith("poll(") for line in file)
if not 1 <= polls <= 10:
    fail("a compiler that takes a second", f"the system was asked {polls} times")
end()
END
