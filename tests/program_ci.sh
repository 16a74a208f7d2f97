#!/bin/sh
# wrappers/vunit_ci: a warning makes a green run red, wherever it stands in the stream; everything else is handed on unchanged.
. "$TOP/tests/support/needs.sh"
needs python3
PYTHONPATH=$TOP/tests/support exec python3 -B - <<'END'
import json, os, signal, subprocess, sys, time

from trial import PROGRAM, end, fail, package, project, toml, write

CI = os.path.join(os.environ["TOP"], "wrappers", "vunit_ci")
SIMULATOR = [sys.executable, "-B", os.path.join(os.environ["TOP"], "tests", "support", "simulator.py")]
TOOLS = f"compiler = {json.dumps(['sh', '-c', 'cat >/dev/null'])}\nsimulator = {json.dumps(SIMULATOR)}\n"
BENCH = 'entity t is generic (runner_cfg : string); end;\narchitecture a of t is begin\nx <= run("a");\nend;\n'
ONE = toml({"lib": ["t.vhd"]})


def run(name, wanted, *words, program=PROGRAM, folder="project", said=None, out=None, error=None, **given):
    """Runs the wrapper, and compares the status, and where they are given what its last line says, and both streams."""
    ran = subprocess.run([CI, *words], cwd=folder, env=dict(os.environ, VUNIT_RUN=program), stdin=subprocess.DEVNULL,
                         capture_output=True, timeout=120, **given)
    last = ran.stderr.decode("latin-1").splitlines()[-1:]
    if ran.returncode != wanted or said is not None and last != ([said] if said else []) or out is not None and ran.stdout != out \
            or error is not None and ran.stderr != error:
        fail(name, f"it is {ran.returncode, ran.stdout[:500], ran.stderr[-1000:]}")
    return ran


def fake(name, script):
    """A program that is a script."""
    path = os.path.abspath(name)
    with open(path, "w") as file:
        file.write("#!/bin/sh\n" + script)
    os.chmod(path, 0o755)
    return path


# Green and red, each kind with its words, and the exception.
project("project", {"vunit.toml": TOOLS + ONE, "t.vhd": BENCH})
run("green", 0, said="")
run("green, with words of the program", 0, "-q", "lib.t.a", said="")
for kinds, text, words in (("not-analysed, not-simulated", ONE, ()), ("not-analysed", ONE, ("--compile",)), ("unknown-key", "x = 1\n" + TOOLS + ONE, ()),
                           ("no-match", TOOLS + ONE, ("lib.t.a", "none")), ("no-match, no-test", TOOLS + ONE, ("?",))):
    project("project", {"vunit.toml": text, "t.vhd": BENCH})
    run(kinds, 1, *words, said=f"vunit_ci: failed for warnings: {kinds}")
    run(f"{kinds}, allowed", 0, *[f"--allow={each}" for each in kinds.split(", ")], *words)
# (a payload of one byte does not count as a record)
damaged = b"\1VUNITREC\3" + b"\1" + bytes(7) + b"\1" + b"\1\0\0\0" + b"x" + b"\0"
kinds = "unread-records"
project("project", {"vunit.toml": TOOLS + ONE, "t.vhd": BENCH, "vunit_out/store_a": damaged})
unknown = "vunit_ci: compiling all anew, the tools differ from those of the last run: not known"
run("damaged records of unknown tools are emptied", 0, "--compile", said=unknown)
with open("project/vunit_out/tools") as file:
    kept = file.read()
project("project", {"vunit.toml": TOOLS + ONE, "t.vhd": BENCH, "vunit_out/store_a": damaged, "vunit_out/tools": kept})
run(kinds, 1, said=f"vunit_ci: failed for warnings: {kinds}")
run(f"{kinds}, allowed", 0, f"--allow={kinds}")
run(f"{kinds}, mended", 0, "--clean", said="")
run(f"{kinds}, after it", 0, said="")
project("project", {"vunit.toml": TOOLS + toml({"lib": ["*/*.vhd"]}), "src/t.vhd": BENCH, "behind/a.vhd": package("a")})
os.symlink("behind", "project/there")
os.rename("project/behind", "project/.behind")
os.unlink("project/there")
os.symlink(".behind", "project/there")
run("linked-folder", 1, said="vunit_ci: failed for warnings: linked-folder")
project("project", {"vunit.toml": TOOLS + ONE, "t.vhd": "library lib;\nuse lib.all;\n" + BENCH})
run("a use of a whole library", 0, said="")
run("a use of a whole library, denied", 1, "--deny=library-all", said="vunit_ci: failed for warnings: library-all")

# What isn't 0 is handed on, with both streams byte by byte.
project("project", {})
for status in 1, 3, 5, 126:
    program = fake("fake", f"printf 'out\\377'; printf 'vunit_run: warning: nothing is simulated\\n\\200' >&2; exit {status}\n")
    run(f"status {status}", status, program=program, out=b"out\xff", error=b"vunit_run: warning: nothing is simulated\n\x80")
for number in signal.SIGTERM, signal.SIGKILL, signal.SIGSEGV:
    run(f"signal {number}", -number, program=fake("fake", f"kill -{int(number)} $$\n"))
run("no program", 127, program="/nowhere/vunit_run")
run("an unknown kind", 2, "--allow=nothing")

# Words anywhere in the stream: after half a line, cut between two writes, at the end without a line feed.
for name, script in (("after half a line", "printf 'half a line vunit_run: warning: nothing is simulated: x\\n' >&2"),
                     ("between two writes", "printf 'x vunit_run: war' >&2; sleep 0.3; printf 'ning: nothing is simulated\\n' >&2"),
                     ("at the end", "printf 'vunit_run: warning: nothing is simulated' >&2")):
    run(name, 1, program=fake("fake", script + "\n"))
run("the launcher's line", 0, program=fake("fake", "echo 'vunit_run: checked build: PROVED names these sources' >&2\n"))
run("dropped lines", 1, program=fake("fake", "echo 'vunit_run: warning: 3 lines dropped, standard error was full' >&2\n"),
    said="vunit_ci: failed for warnings: dropped")
run("another warning", 1, program=fake("fake", "echo 'vunit_run: warning: of tomorrow' >&2\n"), said="vunit_ci: failed for warnings: other")

# Children that write half lines while tests fail and pass, and a reader that sleeps: the warning at the end is found.
shouting = json.dumps(["sh", "-c", "cat >/dev/null; i=0; while [ $i -lt 3000 ]; do printf 'half a line of a child that shouts ' >&2; i=$((i + 1)); done"])
project("project", {"vunit.toml": f"compiler = {shouting}\nx = 1\n" + toml({"lib": ["*.vhd"]}), "a.vhd": package("a"), "b.vhd": package("b")})
slow = subprocess.Popen([CI, "--compile"], cwd="project", env=dict(os.environ, VUNIT_RUN=PROGRAM), stdin=subprocess.DEVNULL,
                        stdout=subprocess.PIPE, stderr=subprocess.PIPE)
time.sleep(5)
_, error = slow.communicate(timeout=120)
if slow.returncode != 1 or b"vunit_run: warning: vunit.toml:2:1: unknown key x" not in error:
    fail("a reader that sleeps", f"it is {slow.returncode, error[-300:]}")

# A signal goes to the program, and no process is left. One that keeps a pipe open isn't waited for.
ready = fake("fake", "trap 'exit 7' TERM; : >started; while :; do sleep 0.1; done\n")
project("project", {})
child = subprocess.Popen([CI], cwd="project", env=dict(os.environ, VUNIT_RUN=ready), stdin=subprocess.DEVNULL, stdout=subprocess.DEVNULL)
until = time.monotonic() + 60
while not os.path.exists("project/started") and time.monotonic() < until:
    time.sleep(0.01)
child.terminate()
if child.wait(timeout=60) != 7:
    fail("a signal", f"the status is {child.returncode}")
keeping = fake("fake", "sleep 300 & echo $! >kept\n")
began = time.monotonic()
ran = subprocess.run([CI], cwd="project", env=dict(os.environ, VUNIT_RUN=keeping), stdin=subprocess.DEVNULL, stdout=subprocess.DEVNULL,
                     stderr=subprocess.DEVNULL, timeout=120)
took = time.monotonic() - began
with open("project/kept") as file:
    os.kill(int(file.read()), signal.SIGKILL)
if ran.returncode != 0 or took > 60:
    fail("a process that keeps the pipe", f"it is {ran.returncode} after {took} seconds")

flooding = fake("fake", "(while :; do echo flood >&2; done) & echo $! >kept\n")
ran = subprocess.run([CI], cwd="project", env=dict(os.environ, VUNIT_RUN=flooding), stdin=subprocess.DEVNULL, stdout=subprocess.DEVNULL,
                     stderr=subprocess.DEVNULL, timeout=120)
with open("project/kept") as file:
    flood = int(file.read())
try:
    os.kill(flood, signal.SIGKILL)
except ProcessLookupError:
    pass
if ran.returncode != 0:
    fail("a process that floods the pipe", f"it is {ran.returncode}")

# A killed wrapper leaves no program.
left = fake("fake", "echo $$ >number; exec sleep 300\n")
killed = subprocess.Popen([CI], cwd="project", env=dict(os.environ, VUNIT_RUN=left), stdin=subprocess.DEVNULL, stdout=subprocess.DEVNULL)
until = time.monotonic() + 60
while not (os.path.exists("project/number") and open("project/number").read().strip()) and time.monotonic() < until:
    time.sleep(0.01)
killed.kill()
killed.wait()
number = int(open("project/number").read())
until = time.monotonic() + 60
while os.path.exists(f"/proc/{number}") and " Z " not in open(f"/proc/{number}/stat").read() and time.monotonic() < until:
    time.sleep(0.01)
if os.path.exists(f"/proc/{number}") and " Z " not in open(f"/proc/{number}/stat").read():
    fail("a wrapper that is killed", "its program goes on")
    os.kill(number, signal.SIGKILL)

# The tools of the last run: where they differ or aren't known, all is compiled again, once.
project("project", {"vunit.toml": TOOLS + ONE, "t.vhd": BENCH})
PASSED, NOT_NEEDED = b"Compiling into lib: t.vhd passed\nCompile passed\n", b"Re-compile not needed\n"
run("the first run", 0, "--compile", out=PASSED, error=b"")
run("the second run", 0, "--compile", out=NOT_NEEDED, error=b"")
said = "vunit_ci: compiling all anew, the tools differ from those of the last run: "
os.unlink("project/vunit_out/tools")
run("a list opens no store", 0, "-l")
run("unknown tools", 0, "--compile", out=PASSED, said=said + "not known")
run("unknown tools, again", 0, "--compile", out=NOT_NEEDED, error=b"")
with open("project/vunit_out/tools") as file:
    kept = file.read()
for name in "program", "wrappers", "vunit_lib", "ghdl":
    write("project", {"vunit_out/tools": "".join(line if not line.startswith(name + " ") else name + " other\n" for line in kept.splitlines(keepends=True))})
    run(f"another {name}", 0, "--compile", out=PASSED, said=said + name)
    if open("project/vunit_out/tools").read() != kept:
        fail(f"another {name}", "the tools aren't kept")

# A GHDL with which the wrappers were not tried is named once a run, and one that was is not.
for version, generator, told in ("9.9.9", "llvm", True), ("2.0.0", "mcode", False):
    write("other", {"ghdl": f"#!/bin/sh\nprintf 'GHDL {version} (x) [y]\\n {generator} code generator\\n'\n"})
    os.chmod("other/ghdl", 0o755)
    project("project", {"vunit.toml": TOOLS + ONE, "t.vhd": BENCH})
    environment = dict(os.environ, PATH=os.path.abspath("other") + ":" + os.environ["PATH"])
    ran = subprocess.run([CI, "--compile"], cwd="project", env=environment, stdin=subprocess.DEVNULL, capture_output=True)
    wanted = f"vunit_ci: GHDL {version} {generator} wasn't tried with these wrappers: tests/try_ghdl tries it\n".encode() if told else b""
    if (ran.returncode, ran.stdout, ran.stderr) != (0, PASSED, wanted):
        fail(f"GHDL {version}", f"it is {ran}")

# An interrupt before the program is started ends both at once, without a message of the wrapper.
write("other", {"ghdl": "#!/bin/sh\n: >asked\nexec sleep 60\n"})
os.chmod("other/ghdl", 0o755)
project("project", {"vunit.toml": TOOLS + ONE, "t.vhd": BENCH})
environment = dict(os.environ, PATH=os.path.abspath("other") + ":" + os.environ["PATH"])
ran = subprocess.Popen([CI, "--compile"], cwd="project", env=environment, stdin=subprocess.DEVNULL, stdout=subprocess.PIPE,
                       stderr=subprocess.PIPE, start_new_session=True)
until = time.monotonic() + 60
while not os.path.exists("project/asked") and time.monotonic() < until:
    time.sleep(0.05)
os.killpg(ran.pid, signal.SIGINT)
out, error = ran.communicate(timeout=60)
if (ran.returncode, out, error) != (-signal.SIGINT, b"", b""):
    fail("an interrupt before the start", f"it is {(ran.returncode, out, error)}")
end()
