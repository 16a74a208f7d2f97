#!/bin/sh
# A build that is killed at any moment keeps what it acknowledged: the next run starts exactly the files without a current
# record, and the one after it nothing. What is on the disk is read by another reader of its form. While a build runs,
# another start over the same folder fails, and harms nothing.
. "$TOP/tests/support/needs.sh"
needs python3 tomllib
PYTHONPATH=$TOP/tests/support exec python3 -B - <<'END'
import ctypes, json, os, shutil, subprocess, sys, time

from store_reader import asked_at, built_over, graph_of, latest_of, read_request, records_of, request_of
from trial import (COMPILER, PROGRAM, artefact_of, build_text, end, environment, expect, fail, is_true, package, project, requests_in, run,
                   stale_of, started_in, toml, write)

KILLS, SECONDS = 36, 75
ctypes.CDLL(None).prctl(36, 1, 0, 0, 0)  # what a killed program leaves running becomes a child of this process
begun = time.monotonic()

# 16 files of one library, each over up to three before it, and 8 of another, each over two of the first.
FILES = {f"src/p{at}.vhd": package(f"p{at}", *sorted({f"work.p{below}" for below in (at // 2, at * 2 // 3, at - 1) if below in range(at)}))
         for at in range(16)}
FILES |= {f"tb/t{at}.vhd": package(f"t{at}", f"lib.p{at}", f"lib.p{2 * at}") for at in range(8)}
PAIRS = '\n[[depends]]\nlibrary = "tb_lib"\npath = "tb/t7.vhd"\non_library = "tb_lib"\non_path = "tb/t6.vhd"\n'


def listing(option):
    return toml({"lib": ["src/*.vhd"], "tb_lib": ["tb/*.vhd"]}, COMPILER, {"lib": [option]}) + PAIRS


def edited(path, number):
    return {path: FILES[path] + f"-- {number}\n"}


def check_store(name):
    """The records of the disk, each of which is true: the compiler gives its artefact for its request."""
    records = records_of("project")
    for record in records:
        if not is_true(record):
            fail(name, f"the record of {record.asked.path} isn't true")
    return records


def check_requests(name, records, folder):
    """Each request of a killed run was made over artefacts that are on the disk."""
    kept = {(record.asked.library, record.asked.path, record.artefact) for record in records}
    for request in requests_in(folder):
        for dependency in read_request(request)[3]:
            if dependency not in kept:
                fail(name, f"{read_request(request)[:2]} was started over {dependency}, which isn't on the disk")


def check_run(name, folder):
    """A run starts exactly the files without a current record, over the right artefacts, and leaves nothing to do."""
    graph, records = graph_of("project"), records_of("project")
    stale = stale_of("project", records)
    shutil.rmtree(folder, ignore_errors=True)
    expect(name, "project", 0, build_text(stale), "--compile", "-p", "4", env=environment(folder))
    if sorted(started_in(folder)) != sorted(stale):
        fail(name, f"it started {started_in(folder)}\nand not {stale}")
    place, built = {entry[:2]: at for at, entry in enumerate(graph)}, built_over(graph, [], artefact_of)[1]
    for request in requests_in(folder):
        at = place[read_request(request)[:2]]
        if request != request_of(asked_at(graph, at, built)):
            fail(name, f"{graph[at][:2]} was started with another request than by a clean build")
    check_store(name)
    if stale_of("project"):
        fail(name, f"after it these are stale: {stale_of('project')}")
    expect(name + ", and once more", "project", 0, build_text([]), "--compile", "-p", "4", env=environment(folder))
    if started_in(folder):
        fail(name, f"the run after it started {started_in(folder)}")


def restore(base):
    shutil.rmtree("project", ignore_errors=True)
    shutil.copytree(base, "project", symlinks=True)


def start(words, requests, delay=None):
    return subprocess.Popen([PROGRAM, "--compile", *words], cwd="project", env=environment(requests, delay), stdin=subprocess.DEVNULL,
                            stdout=subprocess.PIPE, stderr=subprocess.PIPE, start_new_session=True)


def reap():
    """Waits for all that killed programs left running."""
    try:
        while True:
            os.wait()
    except ChildProcessError:
        pass


# From where the builds that are killed begin: no store, a store with a part that is stale, one that is stale as a whole, and one that is emptied.
project("project", FILES | {"vunit.toml": listing("-a")})
shutil.copytree("project", "empty")
check_run("a first build", "requests")
shutil.copytree("project", "built")
BASES = [("empty", {}, []), ("built", edited("src/p3.vhd", 1), []), ("built", {"vunit.toml": listing("-b")}, []),
         ("built", edited("src/p0.vhd", 1), ["--clean"])]
took = []
for base, edits, words in BASES:
    restore(base)
    write("project", edits)
    before = time.monotonic()
    run("project", "--compile", "-p", "4", *words, env=environment("requests"))
    took.append(time.monotonic() - before)

kills = 0
moments = KILLS // len(BASES)
inside = 0
for at in range(KILLS):
    if time.monotonic() - begun > SECONDS or kills >= 40:
        print(f"only {kills} kills were tried in {SECONDS} seconds")
        break
    base, edits, words = BASES[at % len(BASES)]
    moment = (at // len(BASES) + 0.5) / moments * took[at % len(BASES)]
    name = f"kill {at} of {base} with {[*edits, *words]} after {moment * 1000:.0f} ms of {took[at % len(BASES)] * 1000:.0f}"
    restore(base)
    write("project", edits)
    before = latest_of(records_of("project"))
    killed = start(["-p", "4", *words], "killed")
    time.sleep(moment)
    killed.kill()
    inside += killed.wait() == -9
    kills += 1
    records = check_store(name)
    if not words and before.keys() - latest_of(records).keys():
        fail(name, f"lost the records of {before.keys() - latest_of(records).keys()}")
    # by turns: unchanged, edited back, and with another edit
    write("project", [{}, {path: FILES[path] for path in edits if path in FILES}, edited("src/p5.vhd", at)][at % 3])
    check_run(name, "requests")
    reap()
    check_requests(name, records, "killed")
if inside < kills // 2:
    fail("the moments", f"only {inside} of {kills} kills found the program running")

# Another start over the folder, while a build runs that takes a while.
restore("empty")
first = start(["-p", "4"], "first", 0.2)
until = time.monotonic() + 20
while not started_in("first") and time.monotonic() < until:
    time.sleep(0.01)
LOCKED = "vunit_run: fault of disk\nvunit_run: vunit_out/store_a: lock: another run has locked it\n"
for _ in range(3):
    expect("a second program on the folder", "project", 3, "", "--compile", error=LOCKED, env=environment("second"))
    if os.listdir("second"):
        fail("a second program on the folder", f"it started {os.listdir('second')}")
if first.poll() is not None:
    fail("a second program on the folder", "the first had ended by then")
out, err = first.communicate()
names = [entry[:2] for entry in graph_of("project")]
if (first.returncode, out, err) != (0, build_text(names).encode(), b""):
    fail("the first program", f"it is {first.returncode, out, err}")
if sorted(started_in("first")) != sorted(names):
    fail("the first program", f"it started {started_in('first')}")
check_store("the first program")
expect("after both", "project", 0, build_text([]), "--compile", env=environment("requests"))

# The folder is free again as soon as a program is killed, though its compilers still run.
restore("empty")
killed = start(["-p", "4"], "killed", 3)
until = time.monotonic() + 20
while not started_in("killed") and time.monotonic() < until:
    time.sleep(0.01)
killed.kill()
killed.wait()
check_run("while compilers of a killed program run", "requests")
reap()
# Runs that are killed in the middle of their tests leave simulators running. The next run has its own verdicts. By turns the
# killed one left a pass and this run has no results, or the reverse. What still runs writes nothing before the next run is
# over.
CASES = [f"c{at}" for at in range(8)]
calls = "".join(f'x{at} <= run("{case}");\n' for at, case in enumerate(CASES))
more = f"simulator = {json.dumps([sys.executable, '-B', os.path.join(os.environ['TOP'], 'tests', 'support', 'simulator.py')])}\n"
project("tested", {"vunit.toml": toml({"lib": ["t.vhd"]}, more=more),
                   "t.vhd": f"entity t is generic (runner_cfg : string); end;\narchitecture a of t is begin\n{calls}end;\n"})


def by(plan, name):
    """The environment of a run whose simulators all do this, but that only the first three don't sleep."""
    with open(name, "w") as file:
        json.dump({f"lib.t.{case}": dict(plan, sleeps=plan["sleeps"] * (at > 2), makes=f"{name}_{at}") for at, case in enumerate(CASES)}, file)
    return dict(os.environ, PLAN=os.path.abspath(name))


def test_text(word, first="Re-compile not needed\n"):
    passes, fails = (len(CASES), 0) if word == "pass" else (0, len(CASES))
    return (first + "".join(f"{word} lib.t.{case}\n" for case in CASES) + f"==== Summary\npass {passes} of 8\nfail {fails} of 8\nskip 0 of 8\n"
            + ("All passed!\n" if passes else "Some failed!\n"))


passes, has_none = {"sleeps": 0}, {"sleeps": 0, "results": None}
expect("tests", "tested", 0, test_text("pass", "Compiling into lib: t.vhd passed\nCompile passed\n"), "-p", "3", env=by(passes, "plan"))
for at in range(6):
    left, own, word, status = ((passes, has_none, "fail", 1), (has_none, passes, "pass", 0))[at % 2]
    killed = subprocess.Popen([PROGRAM, "-p", "3"], cwd="tested", env=by(dict(left, sleeps=60), f"left{at}"), stdin=subprocess.DEVNULL,
                              stdout=subprocess.PIPE, start_new_session=True)
    until = time.monotonic() + 20
    while not os.path.exists(f"tested/left{at}_{3 + at % 3}") and time.monotonic() < until:
        time.sleep(0.001)
    killed.kill()
    if killed.wait() != -9 or killed.stdout.read():
        fail("kills of tests", f"kill {at} didn't find the run at work")
    expect(f"tests after kill {at}", "tested", status, test_text(word), "-p", "3", env=by(own, "plan"))
    for pid in os.listdir("/proc"):
        # (the remaining child is ended, so that it can't write into a later run)
        try:
            if pid.isdigit() and os.readlink(f"/proc/{pid}/cwd") == os.path.realpath("tested"):
                os.kill(int(pid), 9)
        except (FileNotFoundError, ProcessLookupError, PermissionError):
            pass
    reap()
print(f"{kills} kills, {inside} of them inside a run, in {time.monotonic() - begun:.0f} seconds")
end()
END
