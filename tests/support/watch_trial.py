"""wrappers/vunit_watch over projects that are edited: which edits cause a run, the output, and the leftovers."""

import fcntl, os, shutil, signal, subprocess, sys, threading, time

from lsp_client import Client
from told import without_told
from trial import PROGRAM, end, fail, package, project, toml

WATCH = os.path.join(os.environ["TOP"], "wrappers", "vunit_watch")
ROOM = os.path.abspath("tmp")
PATIENCE = 60
BENCH = """entity tb is generic (runner_cfg : string); end;
architecture a of tb is begin process begin
  /* é */ if run("one") then
  -- child: fail lib.tb.one
  end if;
end process; end;
"""


def same(name, found, wanted):
    if found != wanted:
        fail(name, f"it is {found}\nand not {wanted}")


def script(path, text):
    with open(path, "w") as file:
        file.write("#!/bin/sh\n" + text)
    os.chmod(path, 0o755)
    return os.path.abspath(path)


def write(path, text):
    """Writes a file as an editor does: another one takes its name."""
    with open(path + ".part", "w") as file:
        file.write(text)
    os.rename(path + ".part", path)


def launcher(text):
    """The launcher of a package whose program is a script."""
    for folder in ("packed/bin", "packed/lib"):
        os.makedirs(folder, exist_ok=True)
    for part in ("packed_launcher", "run.sh", "wait.sh"):
        shutil.copy(os.path.join(os.environ["TOP"], "bin", part), "packed/bin/vunit_run" if part == "packed_launcher" else "packed/bin")
    script("packed/lib/vunit_run", text)
    return os.path.abspath("packed/bin/vunit_run")


def until(name, what):
    """Waits until this is so."""
    end_of_time = time.monotonic() + PATIENCE
    while not what():
        if time.monotonic() > end_of_time:
            fail(name, "it takes too long")
            return
        time.sleep(0.02)


class Watch:
    """A watch, and how many runs of the program but exports it has begun: a script in the program's place counts them."""

    def __init__(self, *words, program=PROGRAM, before=(), more=""):
        os.makedirs(ROOM, exist_ok=True)
        self.count = os.path.abspath("count")
        if os.path.exists(self.count):
            os.unlink(self.count)
        counted = script("counted", f"""case $1 in --export-json=* | --help | child-bench) ;; *) {more} echo "$*" >>{self.count};; esac
exec {program} "$@"
""")
        given = {**os.environ, "VUNIT_RUN": counted, "TMPDIR": ROOM}
        self.process = subprocess.Popen([*before, WATCH, *words], cwd="project", env=given, stdin=subprocess.DEVNULL,
                                        stdout=subprocess.PIPE, stderr=subprocess.STDOUT)
        self.said = b""
        self.reader = threading.Thread(target=self.read, daemon=True)
        self.reader.start()

    def read(self):
        while part := os.read(self.process.stdout.fileno(), 4096):
            self.said += part

    def runs(self):
        if not os.path.exists(self.count):
            return 0
        with open(self.count) as file:
            return len(file.readlines())

    def waits(self):
        """How often it has said that it waits for a change."""
        return self.said.count(b"waits for a change\n")

    def expect(self, name, runs):
        """Waits until this number of runs was made, and the last of them has ended."""
        until = time.monotonic() + PATIENCE
        while (self.runs() < runs or self.waits() < runs) and time.monotonic() < until:
            time.sleep(0.02)
        same(f"{name}: runs", self.runs(), runs)

    def end(self, number=signal.SIGINT):
        self.process.send_signal(number)
        status = self.process.wait(PATIENCE)
        self.reader.join(PATIENCE)
        self.process.stdout.close()
        until = time.monotonic() + PATIENCE
        while os.listdir(ROOM) and time.monotonic() < until:
            time.sleep(0.05)
        same("its end", (status, os.listdir(ROOM)), (-number, []))


EDITS = [
    # name, what is done, and whether it causes a run
    ("a source that is written in place", lambda: open("project/a.vhd", "a").write("-- x\n"), True),
    ("a file that isn't the project's", lambda: open("project/notes.txt", "a").write("x"), False),
    ("a source that an editor replaces", lambda: write("project/b.vhd", package("b", "work.a")), True),
    ("a new source", lambda: write("project/sub/c.vhd", package("c")), True),
    ("a new file that no pattern reaches", lambda: write("project/sub/c.txt", "x"), False),
    ("a source that is renamed", lambda: os.rename("project/sub/c.vhd", "project/sub/d.vhd"), True),
    ("a source that is removed", lambda: os.unlink("project/sub/d.vhd"), True),
    ("a file below vunit_out", lambda: write("project/vunit_out/e.vhd", package("e")), False),
    ("a hidden file", lambda: write("project/.f.vhd", package("f")), False),
    ("a folder with a source", lambda: os.rename("moved", "project/new"), True),
    ("the project file", lambda: open("project/vunit.toml", "a").write("# x\n"), True),
    ("a list, where there is a vunit.toml", lambda: open("project/vunit.csv", "a").write("lib,a.vhd\n"), False),
    ("a source that is refused", lambda: write("project/a.vhd", "foo"), True),
    ("a file that isn't the project's, of a refused project", lambda: open("project/notes.txt", "a").write("x"), False),
    ("a mended source", lambda: write("project/a.vhd", package("a")), True),
    ("an edit that changes nothing of what a refusal says", lambda: open("project/sub/more.vhd", "a").write("-- x\n"), True),
]


def edits(before=(), rows=EDITS):
    """Each edit, and the run that it should cause."""
    shutil.rmtree("moved", ignore_errors=True)
    os.makedirs("moved")
    write("moved/g.vhd", package("g"))
    project("project", {"vunit.toml": toml({"lib": ["**/*.vhd"]}), "a.vhd": package("a"), "b.vhd": package("b"), "sub/more.vhd": package("more")})
    watch = Watch("--compile", before=before)
    runs = 1
    watch.expect("at first", runs)
    for name, edit, causes in rows:
        edit()
        if causes:
            runs += 1
            watch.expect(name, runs)
        else:
            # (it causes none while another edit would long have caused one)
            time.sleep(1.0 if not before else 2.5)
            same(f"{name}: runs", watch.runs(), runs)
    same("words", {line for line in open("count").read().split("\n") if line}, {"--compile"})
    watch.end()


def failures():
    """What is printed of a run: the program's text, and the place of each case that failed."""
    project("project", {"vunit.toml": toml({"lib": ["*.vhd"]}), "tb.vhd": BENCH})
    watch = Watch("-q")
    watch.expect("tests", 1)
    text = watch.said.decode()
    for wanted in ("Compile passed\n", "fail lib.tb.one\n", "tb.vhd:3:20: fail lib.tb.one\n", "vunit_watch: status 1, waits for a change\n"):
        if wanted not in text:
            fail("what is printed", f"{text}\nhas no {wanted}")
    write("project/tb.vhd", BENCH.replace("child", "not"))
    watch.expect("the mended case", 2)
    text = watch.said.decode()[len(text):]
    if "All passed!" not in text or ": fail" in text or "vunit_watch: tb.vhd changed\n" not in text:
        fail("what is printed once it is mended", text)
    watch.end(signal.SIGTERM)
    project("project", {"vunit.toml": toml({"lib": ["*.vhd"]}), "tb.vhd": BENCH})
    watch = Watch("-x", "own.xml", "lib.*")
    watch.expect("a report of its own", 1)
    same("the report", os.path.exists("project/own.xml"), True)
    time.sleep(1)
    same("runs that a report causes", watch.runs(), 1)
    write("project/tb.vhd", "foo")
    watch.expect("a refused run", 2)
    same("the report of the run before", os.path.exists("project/own.xml"), True)
    same("cases that failed in the run before", watch.said.count(b": fail lib.tb.one\n"), 1)
    same("what is said of words", b"word" in watch.said, False)
    watch.end(signal.SIGHUP)


def endings():
    """A change during a run ends it with its children, as does a signal."""
    slow = script("slow", 'echo $$ >>"$PIDS"; exec sleep 300\n')
    os.environ["PIDS"] = pids = os.path.abspath("pids")
    project("project", {"vunit.toml": toml({"lib": ["*.vhd"]}, [slow]), "a.vhd": package("a")})
    started = lambda: open(pids).read().split() if os.path.exists(pids) else []

    def wait_for(count):
        until = time.monotonic() + PATIENCE
        while len(started()) < count and time.monotonic() < until:
            time.sleep(0.02)
        same("compilers that were started", len(started()), count)

    watch = Watch("--compile")
    wait_for(1)
    with open("project/notes.txt", "w") as file:
        file.write("x")
    time.sleep(0.5)
    same("another file doesn't end a run", os.path.exists(f"/proc/{started()[0]}"), True)
    write("project/a.vhd", package("a") + "-- x\n")
    wait_for(2)
    same("the first compiler", os.path.exists(f"/proc/{started()[0]}"), False)
    watch.end()
    same("the second compiler", os.path.exists(f"/proc/{started()[1]}"), False)
    # (a launcher that builds the program first)
    watch = Watch("--compile", program=script("builds", 'sleep 300 & echo $! $$ >>"$PIDS"; wait\n'))
    wait_for(4)
    watch.end()
    same("what builds", [pid for pid in started()[2:] if os.path.exists(f"/proc/{pid}")], [])
    same("what is said of an end", watch.said, b"")


def words():
    """Wrong words, no program and no project end a watch by name; a program that has --changed is run with it."""
    given = {**os.environ, "TMPDIR": ROOM}

    def run(folder, *words, program=PROGRAM):
        os.makedirs(folder, exist_ok=True)
        ran = subprocess.run([WATCH, *words], cwd=folder, env={**given, "VUNIT_RUN": program}, stdin=subprocess.DEVNULL,
                             capture_output=True, timeout=60)
        return ran.returncode, ran.stdout[:16], ran.stderr

    project("project", {"vunit.toml": toml({"lib": ["*.vhd"]}), "a.vhd": package("a")})
    os.makedirs(ROOM, exist_ok=True)
    same("wrong words", run("project", "--frob")[:2], (2, b"usage: vunit_run"))
    same("no program", run("project", program="/no/such"), (3, b"", b"vunit_watch: /no/such: No such file or directory\n"))
    same("no project", run("empty"), (1, b"", b"vunit_watch: no vunit.toml and no vunit.csv\n"))
    newer = script("newer", f"""case $1 in --help) echo "usage: vunit_run [--changed]"; exit 2;; child-bench) echo builds >&2;; esac
for word do shift; [ "$word" = --changed ] || set -- "$@" "$word"; done
exec {PROGRAM} "$@"
""")
    watch = Watch(program=newer)
    watch.expect("a program with --changed", 1)
    with open("count") as file:
        said = file.read().split()
    same("what a launcher says that builds", watch.said.count(b"builds\n"), 1)
    same("its words", (said[0].split("=")[0], said[1:]), ("--xunit-xml", ["--changed"]))
    watch.end()


def at_once():
    """A server, a watch and a run in a terminal at each save: no run finds the folder locked."""
    project("project", {"vunit.toml": toml({"lib": ["*.vhd"]}), "a.vhd": package("a"), "b.vhd": package("b", "work.a")})
    statuses = os.path.abspath("statuses")
    noted = launcher(f'{PROGRAM} "$@"\nstatus=$?\n[ "$1" = child-bench ] || echo $status >>{statuses}\nexit $status\n')
    server = os.path.join(os.environ["TOP"], "wrappers", "vunit_lsp")
    client = Client([server], "project", env={**os.environ, "VUNIT_RUN": noted, "TMPDIR": ROOM})
    client.open("a.vhd", package("a"))
    watch = Watch("--compile", program=noted)
    watch.expect("at first", 1)
    for number in range(100):
        text = package("a") + f"-- {number}\n"
        client.change("a.vhd", text, number + 2)
        write("project/a.vhd", text)
        client.save("a.vhd")
        ran = subprocess.run([noted, "--compile"], cwd="project", stdin=subprocess.DEVNULL, stdout=subprocess.DEVNULL, timeout=60)
        same(f"save {number}: the run in a terminal", ran.returncode, 0)
        watch.expect(f"save {number}", number + 2)
    client.wait_until(lambda: False, 1)
    same("its server", client.leave(), 0)
    watch.end()
    with open(statuses) as file:
        found = file.read().split()
    same("statuses", {*found} - {"0", "-2", "130"}, set())
    print(f"tried: 100 saves with a server, a watch and a run in a terminal: {len(found)} runs, {found.count('3')} of them with status 3")


def turns():
    """A run of the watch and one by the launcher keep apart, also where one has been started and hasn't locked the store yet."""
    hold, held, name = os.path.abspath("hold"), os.path.abspath("held"), os.path.abspath("name")
    # (the second script isn't seen as a process of the program)
    waits = script("held_program", f'while [ -e {hold} ]; do sleep 0.05; done\nexec {PROGRAM} "$@"\n')
    started = launcher(f"""case $1 in --compile) ;; *) exec {PROGRAM} "$@";; esac
[ ! -e {hold} ] || echo >>{held}
[ ! -e {name} ] || exec sh {waits} "$@"
. {waits}
""")
    project("project", {"vunit.toml": toml({"lib": ["*.vhd"]}), "a.vhd": package("a")})
    given = {key: value for key, value in os.environ.items() if key != "VUNIT_RUN_WAIT"}

    def begin(*words, **more):
        return subprocess.Popen([started, *words], cwd="project", env={**given, **more}, stdin=subprocess.DEVNULL,
                                stdout=subprocess.PIPE, stderr=subprocess.PIPE, bufsize=0)

    def ends(case, run, wanted):
        said, told = run.communicate(timeout=PATIENCE)
        same(case, (run.returncode, said, without_told(told)), wanted)

    def starts_held(count):
        until("a start that is held", lambda: os.path.exists(held) and len(open(held).readlines()) == count)

    def save(text):
        write("project/a.vhd", package("a") + f"-- {text}\n")

    passed, nothing = b"Compiling into lib: a.vhd passed\nCompile passed\n", b"Re-compile not needed\n"
    waiting = b"vunit_run: waiting for a run of vunit_watch in this folder%s\n"
    open(hold, "w").close()
    first = begin("--compile")
    starts_held(1)
    watch = Watch("--compile", program=started)
    until("a first watch", lambda: b"waits for another run" in watch.said)
    same("runs beside a run that found no watch", (watch.runs(), first.poll()), (0, None))
    os.unlink(hold)
    ends("a run that found no watch", first, (0, passed, b""))
    watch.expect("after a run that found no watch", 1)

    open(name, "w").close()
    open(hold, "w").close()
    second = begin("--compile")
    starts_held(2)
    save("second")
    until("a save beside a run", lambda: watch.said.count(b"waits for another run") == 2)
    same("runs beside a run", (watch.runs(), second.poll()), (1, None))
    os.unlink(hold)
    ends("a run that was there first", second, (0, passed, b""))
    watch.expect("after a run", 2)

    for number, wait in ((3, ""), (4, "1000")):
        open(hold, "w").close()
        save(number)
        starts_held(number)
        run = begin("--compile", VUNIT_RUN_WAIT=wait)
        told = run.stderr.readline()
        same("what a start beside the watch says", told, waiting % (b", at most 1000 seconds" if wait else b""))
        ends("a list beside a run of the watch", begin("-f"), (0, b"lib, a.vhd\nListed 1 files\n", b""))
        same("a start beside a run of the watch", run.poll(), None)
        os.unlink(hold)
        ends("a start that waited for the watch", run, (0, nothing, b""))
        watch.expect("a run that was waited for", number)

    # A program that was started by no launcher may have the store.
    open(hold, "w").close()
    save("refused")
    starts_held(5)
    store = open("project/vunit_out/store_a", "rb")
    fcntl.flock(store, fcntl.LOCK_EX)
    os.unlink(hold)
    until("a run that is refused", lambda: watch.said.count(b"waits for another run") == 3)
    same("a run that is refused", (watch.runs(), watch.waits()), (5, 4))
    store.close()
    until("after a refusal", lambda: watch.waits() == 5)
    same("runs after a refusal", watch.runs(), 6)
    if b"status 3" in watch.said:
        fail("what a watch says", watch.said.decode())
    watch.end()


def other_runs():
    """A run that has the folder is waited for."""
    slow = script("slow", 'exec sleep 3\n')
    project("project", {"vunit.toml": toml({"lib": ["*.vhd"]}, [slow]), "a.vhd": package("a")})
    other = subprocess.Popen([PROGRAM, "--compile"], cwd="project", stdin=subprocess.DEVNULL, stdout=subprocess.DEVNULL, stderr=subprocess.DEVNULL)
    time.sleep(1)
    with open("project/vunit.toml", "w") as file:
        file.write(toml({"lib": ["*.vhd"]}))
    watch = Watch("--compile")
    until = time.monotonic() + PATIENCE
    while b"waits for another run" not in watch.said and time.monotonic() < until:
        time.sleep(0.02)
    same("another run goes on", (other.poll(), watch.runs()), (None, 0))
    other.wait()
    watch.expect("after the other run", 1)
    watch.end()


for part in sys.argv[1:]:
    if part == "scan":
        # (a system without inotify)
        edits(["strace", "-D", "-f", "--quiet=all", "-o", "/dev/null", "-e", "trace=inotify_init1", "-e",
               "inject=inotify_init1:error=ENOSYS"], EDITS[:5])
    else:
        parts = {"edits": edits, "failures": failures, "endings": endings, "words": words, "at_once": at_once,
                 "other_runs": other_runs, "turns": turns}
        parts[part]()
end()
