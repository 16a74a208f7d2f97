#!/bin/sh
# A run does not depend on standard error. Over random projects standard output and status are the same with a terminal, a pipe
# and none. A full pipe holds up no run, and dropped lines are counted. A terminal shows the lines that it has room for.
. "$TOP/tests/support/needs.sh"
needs python3
PYTHONPATH=$TOP/tests/support exec python3 -B - <<'END'
import fcntl, json, os, pty, re, struct, subprocess, sys, termios, threading, time

import random_projects
from trial import PROGRAM, end, fail, package, project, toml, write

PROJECTS = 300
SIMULATOR = [sys.executable, "-B", os.path.join(os.environ["TOP"], "tests", "support", "simulator.py")]
CATS = json.dumps(["sh", "-c", "cat >/dev/null"])
DROPPED = re.compile(rb"vunit_run: warning: (\d+) lines dropped, standard error was full\n")


def on_terminal(folder, *words, columns=80, seconds=120, **given):
    """Status, standard output, and what a terminal gets that is standard error."""
    master, slave = pty.openpty()
    fcntl.ioctl(slave, termios.TIOCSWINSZ, struct.pack("HHHH", 24, columns, 0, 0))
    got = []

    def read():
        try:
            while data := os.read(master, 65536):
                got.append(data)
        except OSError:
            pass

    child = subprocess.Popen([PROGRAM, *words], cwd=folder, env=dict(os.environ, **{"TERM": "xterm", **given}), stdin=subprocess.DEVNULL,
                             stdout=subprocess.PIPE, stderr=slave)
    os.close(slave)
    reader = threading.Thread(target=read)
    reader.start()
    said = child.communicate(timeout=seconds)[0]
    reader.join()
    os.close(master)
    return child.returncode, said, b"".join(got)


def run(folder, *words, before=(), env=None, seconds=120):
    ran = subprocess.run([*before, PROGRAM, *words], cwd=folder, env=env, stdin=subprocess.DEVNULL, capture_output=True, timeout=seconds)
    return ran.returncode, ran.stdout, ran.stderr


# Random projects, some with a bench, over compilers that are built in. All by turns, each from no store.
closed = ["sh", "-c", 'exec 2>&-; exec "$@"', "sh"]
for seed in range(PROJECTS):
    given = random_projects.make(seed)
    bench = 'entity t is generic (runner_cfg : string); end;\narchitecture a of t is begin\nx <= run("a"); y <= run("b");\nend;\n-- child: fail zz.t.b\n'
    more = '[[library]]\nname = "zz"\nfiles = ["zz/*.vhd"]\n' if seed % 2 else ""
    files = {"vunit.toml": random_projects.toml_of(given) + more, **given.texts, **({"zz/t.vhd": bench} if more else {})}
    words = ([], ["-k"], ["-l"], ["--compile", "-p", "3"], ["*a"])[seed % 5]
    answers = []
    for how in (lambda *words: run("project", *words)[:2], lambda *words: on_terminal("project", *words)[:2],
                lambda *words: run("project", *words, before=closed)[:2]):
        project("project", files)
        answers.append(how(*words))
    if answers[0] != answers[1] or answers[0] != answers[2]:
        fail(f"project {seed}", f"it is {answers}")

# A terminal shows counts, the seconds and the oldest child, failures above that, whatever its width.
project("two", {"vunit.toml": f"compiler = {CATS}\nsimulator = {json.dumps(SIMULATOR)}\n" + toml({"lib": ["t.vhd"]}),
                "t.vhd": 'entity t is generic (runner_cfg : string); end;\narchitecture a of t is begin\nx <= run("a"); y <= run("\u00e4\u20ac");\nend;\n'})
with open("plan", "w") as file:
    json.dump({"lib.t.a": {"results": None, "sleeps": 1.2}}, file)
PLAN = os.path.abspath("plan")
LINE = re.compile(rb"\x1b\[\?7l\r\x1b\[K\[(\d+/\d+)\] (\d+ passed, \d+ failed), (\d+) s: ([^\x1b]*)\x1b\[\?7h\r")
for columns in 1, 2, 20, 500:
    status, said, told = on_terminal("two", columns=columns, PLAN=PLAN, NO_COLOR="1")
    lines = LINE.findall(told)
    counts = [line[:2] + line[3:] for line in lines]
    wanted = [(b"0/2", b"0 passed, 0 failed", b"lib.t.a"), (b"1/2", b"0 passed, 1 failed", "lib.t.\u00e4\u20ac".encode())]
    shown = list(dict.fromkeys(count for count in counts if count[2] != b"lib, t.vhd"))
    if status != 1 or shown != wanted and shown != [(b"1/3", b"1 passed, 0 failed", b"lib.t.a"), (b"2/3", b"1 passed, 1 failed", "lib.t.\u00e4\u20ac".encode())]:
        fail(f"a terminal of {columns} columns", f"it is {status, counts}")
    if not [line for line in lines if line[3] == b"lib.t.a" and int(line[2]) >= 1]:
        fail(f"a terminal of {columns} columns", f"no second has passed: {lines}")
    if not re.search(rb"\r\x1b\[Kvunit_run: fail lib\.t\.a \(\d+\.\d s\): vunit_out/tests/lib\.t\.a\r\n", told):
        fail(f"a terminal of {columns} columns", f"no failure is above: {told}")
status, said, told = on_terminal("two", PLAN=PLAN, TERM="dumb")
if status != 1 or b"\x1b" in told or b"vunit_run: fail lib.t.a (" not in told:
    fail("a dumb terminal", f"it is {status, told}")

# A line that is too long is cut between two letters: 4,096 bytes with its end.
long = "\u20ac" * 1500
write("two", {"t.vhd": f'entity t is generic (runner_cfg : string); end;\narchitecture a of t is begin\n-- vunit: run_all_in_same_sim\nx <= run("{long}");\nend;\n'})
with open("plan", "w") as file:
    json.dump({"lib.t": {"results": None}}, file)
status, said, told = run("two", env=dict(os.environ, PLAN=PLAN))
lines = told.split(b"\n")
if status != 1 or max(map(len, lines)) > 4095 or not lines[0].endswith("\u20ac ..".encode()) or len(lines[0]) < 4090:
    fail("a long line", f"it is {status}, {len(lines[0])} bytes: {lines[0][-40:]}")
told.decode()

# A full pipe: the run goes on, its end waits two seconds in all, and what is dropped is counted once there is room.
CASES = 3000
calls = "".join(f'x{at} <= run("case {at}");\n' for at in range(CASES))
write("two", {"t.vhd": f"entity t is generic (runner_cfg : string); end;\narchitecture a of t is begin\n-- vunit: run_all_in_same_sim\n{calls}end;\n"})
run("two", "--compile")
ALL_LINES = 2 * CASES + 1


def lines_and_dropped(told):
    """How many lines there are but those that count dropped ones, and how many were dropped."""
    counts = [int(count) for count in DROPPED.findall(told)]
    return told.count(b"\n") - len(counts), sum(counts)


whole = run("two", "-q", env=dict(os.environ, PLAN=PLAN))
lines, dropped = lines_and_dropped(whole[2])
if lines + dropped != ALL_LINES or lines < 100 or any(not line.startswith(b"vunit_run: ") for line in whole[2].splitlines()):
    fail("many failures", f"it is {whole[0]}, {lines} lines and {dropped} dropped: {whole[2][:300]}")
read_end, write_end = os.pipe()
began = time.monotonic()
child = subprocess.Popen([PROGRAM, "-q"], cwd="two", env=dict(os.environ, PLAN=PLAN), stdin=subprocess.DEVNULL, stdout=subprocess.PIPE, stderr=write_end)
said = child.communicate(timeout=120)[0]
took = time.monotonic() - began
os.close(write_end)
with open(read_end, "rb") as pipe:
    told = pipe.read()
if (child.returncode, said) != whole[:2] or not told or any(not line.startswith(b"vunit_run: ") for line in told.splitlines()):
    fail("a full pipe", f"it is {child.returncode, told[:300]} after {took} seconds")
slow = subprocess.Popen([PROGRAM, "-q"], cwd="two", env=dict(os.environ, PLAN=PLAN), stdin=subprocess.DEVNULL, stdout=subprocess.DEVNULL, stderr=subprocess.PIPE)
time.sleep(1)
told = slow.stderr.read()
slow.wait(timeout=120)
lines, dropped = lines_and_dropped(told)
if not dropped or lines + dropped != ALL_LINES:
    fail("a reader that sleeps for a second", f"{lines} lines and {dropped} dropped are not {ALL_LINES}")

# Nobody reads, or nothing is there.
read_end, write_end = os.pipe()
os.close(read_end)
child = subprocess.run([PROGRAM, "-q"], cwd="two", env=dict(os.environ, PLAN=PLAN), stdin=subprocess.DEVNULL, stdout=subprocess.PIPE, stderr=write_end, timeout=120)
os.close(write_end)
if (child.returncode, child.stdout) != whole[:2]:
    fail("a pipe without a reader", f"it is {child.returncode}")
if run("two", "-q", before=closed, env=dict(os.environ, PLAN=PLAN))[:2] != whole[:2]:
    fail("a closed standard error", "it differs")
with open("/dev/full", "wb") as full:
    child = subprocess.run([PROGRAM, "-q"], cwd="two", env=dict(os.environ, PLAN=PLAN), stdin=subprocess.DEVNULL, stdout=subprocess.PIPE, stderr=full, timeout=120)
if (child.returncode, child.stdout) != whole[:2]:
    fail("a full device", f"it is {child.returncode}")
end()
