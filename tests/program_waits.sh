#!/bin/sh
# VUNIT_RUN_WAIT: a start waits for another run in its folder, and starts that wait come one after the other. Without it the refusal
# names the process that has the store. A run of a watch is waited for with it and without.
. "$TOP/tests/support/needs.sh"
needs python3 flock
mkdir -p packed/bin packed/lib
cp "$TOP/bin/packed_launcher" packed/bin/vunit_run
cp "$TOP/bin/run.sh" "$TOP/bin/wait.sh" packed/bin
printf '#!/bin/sh\nexec "%s" "$@"\n' "$VUNIT_RUN" >packed/lib/vunit_run
chmod 755 packed/bin/vunit_run packed/lib/vunit_run
PYTHONPATH=$TOP/tests/support exec python3 -B - <<'END_OF_SCRIPT'
import atexit, fcntl, os, re, subprocess, time

from trial import end, fail, package, project, toml

LAUNCHER = os.path.abspath("packed/bin/vunit_run")
WAITING = b"vunit_run: waiting for another run in this folder, at most 100 seconds\n"
COMPILER = '["sh", "-c", "cat >/dev/null; echo >>started; i=0; while [ ! -e go ] && [ $i -lt 1000 ]; do sleep 0.1; i=$((i + 1)); done"]'


started = []


def leave():
    """Lets the compilers end, and ends what still runs."""
    for each in started:
        if each.poll() is None:
            each.terminate()


def start(*words, wait=None, **more):
    env = {**os.environ, **more}
    env.pop("VUNIT_RUN_WAIT", None)
    if wait is not None:
        env["VUNIT_RUN_WAIT"] = wait
    started.append(subprocess.Popen([LAUNCHER, *words], cwd="project", env=env, stdin=subprocess.DEVNULL, stdout=subprocess.PIPE,
                                    stderr=subprocess.PIPE))
    return started[-1]


def until(what, name):
    end_of_time = time.monotonic() + 60
    while not what():
        if time.monotonic() > end_of_time:
            fail(name, "it takes over a minute")
            return
        time.sleep(0.02)


def lines_of(name):
    try:
        with open("project/" + name) as file:
            return len(file.readlines())
    except FileNotFoundError:
        return 0


atexit.register(leave)
project("project", {"vunit.toml": f"compiler = {COMPILER}\n" + toml({"lib": ["a.vhd"]}), "a.vhd": package("a")})
first = start("--compile", wait="100")
until(lambda: lines_of("started") == 1, "the first run")
refused = start("--compile")
said, told = refused.communicate(timeout=60)
found = re.fullmatch(rb"vunit_run: fault of disk\nvunit_run: vunit_out/store_a: lock: another run has locked it[^\n]*\n"
                     rb"vunit_run: process (\d+) has locked vunit_out/store_a\n", told)
if refused.returncode != 3 or said or not found or int(found[1]) != first.pid:
    fail("a refusal", f"it is {refused.returncode, said, told}, and the process is {first.pid}")
began = time.monotonic()
short = start("--compile", wait="1")
said, told = short.communicate(timeout=60)
if short.returncode != 3 or time.monotonic() - began < 0.9 or b"vunit_run: fault of disk\n" not in told or b"at most 1 seconds\n" not in told:
    fail("a short wait", f"it is {short.returncode, told}")

# Three starts that wait end well, each after the one before.
waiting = [start("--compile", wait="100") for _ in range(3)]
time.sleep(0.5)
if any(each.poll() is not None for each in waiting):
    fail("starts that wait", f"they have ended: {[each.poll() for each in waiting]}")
open("project/go", "w").close()
if first.communicate(timeout=60)[0] != b"Compiling into lib: a.vhd passed\nCompile passed\n" or first.returncode != 0:
    fail("the first run", f"the status is {first.returncode}")
for each in waiting:
    said, told = each.communicate(timeout=100)
    if (each.returncode, said, told) != (0, b"Re-compile not needed\n", WAITING):
        fail("a start that waited", f"it is {each.returncode, said, told}")

# Nothing is waited for if nothing runs, and a wrong number does not count as one.
free = start("--compile", wait="100")
said, told = free.communicate(timeout=60)
if (free.returncode, said, told) != (0, b"Re-compile not needed\n", b""):
    fail("a free folder", f"it is {free.returncode, said, told}")
for wait in "x", "-1", "12345678", "1x":
    bad = start("--compile", wait=wait)
    said, told = bad.communicate(timeout=60)
    if (bad.returncode, said) != (126, b"") or b"VUNIT_RUN_WAIT isn't a number of seconds" not in told:
        fail(f"VUNIT_RUN_WAIT={wait}", f"it is {bad.returncode, said, told}")

# The lock that a watch has while it runs. A start that opens the store waits for it; other starts, and those below the watch, don't.
WATCHING = "vunit_run: waiting for a run of vunit_watch in this folder"
NOTHING = (0, b"Re-compile not needed\n")
watch = open("project/vunit_out/watch", "w")
fcntl.flock(watch, fcntl.LOCK_EX)
for words, wanted in [
    (["-f"], (0, b"lib, a.vhd\nListed 1 files\n")), (["--files"], (0, b"lib, a.vhd\nListed 1 files\n")),
    (["-vqf"], (0, b"lib, a.vhd\nListed 1 files\n")), (["--export-json=x.json"], None), (["--export-json", "x.json"], None),
    (["-l"], None), (["--list", "*"], None), (["child-analyse"], None), (["child-bench"], None),
]:
    other = start(*words)
    said, told = other.communicate(timeout=60)
    if b"waiting" in told or wanted and (other.returncode, said) != wanted:
        fail(f"{words} beside a watch", f"it is {other.returncode, said, told}")
for given, wait, seconds in ({"VUNIT_RUN_WATCHED": "1"}, None, 0), ({}, "2", 2), ({}, "02", 2), ({}, "0", 0):
    began = time.monotonic()
    other = start("--compile", wait=wait, **given)
    said, told = other.communicate(timeout=60)
    wanted = "" if given else f"{WATCHING}, at most {int(wait)} seconds\n"
    if (other.returncode, said) != NOTHING or told.decode() != wanted or time.monotonic() - began < seconds - 0.1:
        fail(f"a start beside a watch, with {given} and {wait}", f"it is {other.returncode, said, told}")
waiting = [start(*words, wait=wait) for words, wait in ((["--compile"], None), (["--compile", "-p", "2", "--", "-f"], None), ([], "100"))]
for each, more in zip(waiting, ("", "", ", at most 100 seconds")):
    # (a first line without a buffer that takes more)
    told = b""
    while not told.endswith(b"\n") and (letter := os.read(each.stderr.fileno(), 1)):
        told += letter
    if told.decode() != f"{WATCHING}{more}\n" or each.poll() is not None:
        fail("a start that waits for a watch", f"it is {each.poll(), told}")
# (runs of a terminal share the lock, so one of these might be refused)
for each in waiting[1:]:
    each.terminate()
    each.wait(60)
fcntl.flock(watch, fcntl.LOCK_UN)
for each in waiting[1:]:
    each.communicate(timeout=60)
said, told = waiting[0].communicate(timeout=60)
if (waiting[0].returncode, said, told) != (*NOTHING, b""):
    fail("a start that waited for a watch", f"it is {waiting[0].returncode, said, told}")


def is_shared():
    """Whether a run has the lock, so that no watch can start one."""
    try:
        fcntl.flock(watch, fcntl.LOCK_EX | fcntl.LOCK_NB)
    except BlockingIOError:
        return True
    fcntl.flock(watch, fcntl.LOCK_UN)
    return False


# A run of a terminal has the lock until it ends, and a second one is refused at once.
os.unlink("project/go")
os.unlink("project/started")
with open("project/a.vhd", "a") as file:
    file.write("-- x\n")
first = start("--compile")
until(lambda: lines_of("started") == 1, "a run beside a watch")
refused = start("--compile")
said, told = refused.communicate(timeout=60)
if refused.returncode != 3 or said or b"waiting" in told or not is_shared():
    fail("two runs beside a watch", f"it is {refused.returncode, said, told}")
open("project/go", "w").close()
if first.communicate(timeout=60)[0] != b"Compiling into lib: a.vhd passed\nCompile passed\n" or first.returncode != 0 or is_shared():
    fail("a run beside a watch", f"the status is {first.returncode}")
end()
END_OF_SCRIPT
