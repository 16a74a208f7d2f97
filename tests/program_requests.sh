#!/bin/sh
# Which compilers are started, edit by edit, in small projects whose files depend on each other. A file is current if its latest
# record has its command, its name, its text and the present artefacts of its dependencies, all of them and in order. Each row
# says by hand what is started, with one compiler at a time and with three, and a plain model says the same.
. "$TOP/tests/support/needs.sh"
needs python3 tomllib
PYTHONPATH=$TOP/tests/support exec python3 -B - <<'END'
import array, json, os, shutil, subprocess, sys, tempfile, time

import planned_compiler
from store_reader import FORM, asked_at, built_over, graph_of, read_request, records_of, request_of, side_of, spelled
from trial import PROGRAM, build_text, end, environment, expect, fail, package, project, run, started_in, toml, write

COMPILER = [sys.executable, "-B", os.path.join(os.environ["TOP"], "tests", "support", "planned_compiler.py")]
# u1 and u2 use p, which uses q; w uses both of them, and x uses u2; v uses nothing.
LIBRARIES = {"low": ["low/q.vhd"], "base": ["base/p.vhd"], "lib": ["lib/u1.vhd", "lib/u2.vhd", "lib/v.vhd"], "top": ["top/w.vhd", "top/x.vhd"]}
FILES = {"low/q.vhd": package("q"), "base/p.vhd": package("p", "low.q"), "lib/u1.vhd": package("u1", "base.p"), "lib/u2.vhd": package("u2", "base.p"),
         "lib/v.vhd": package("v"), "top/w.vhd": package("w", "lib.u1", "lib.u2"), "top/x.vhd": package("x", "lib.u2")}
PATHS = {os.path.basename(path)[:-4]: path for path in FILES}
USERS = {"q": "p u1 u2 w x", "p": "u1 u2 w x", "u1": "w", "u2": "w x", "v": "", "w": "", "x": ""}
NOTE, COMMENT, REFUSED = "-- child: note 1\n", "-- a comment\n", "-- child: refuse no\n"


def listing(libraries=LIBRARIES, compiler=COMPILER, options={}):
    return {"vunit.toml": toml(libraries, compiler, options)}


def with_lines(**lines):
    """Files by their names, each with one more line, or with none."""
    return {PATHS[name]: FILES[PATHS[name]] + line for name, line in lines.items()}


def named(words):
    """The files of words, each of which is one's name, or its library, `=` and its name where it was moved."""
    found = []
    for word in words.split():
        library, _, name = word.rpartition("=")
        found.append(((library or PATHS[name].split("/")[0]).encode(), PATHS[name].encode()))
    return found


class Step:
    """Edits, and a run over them: what it starts, in the order of compilation, and of this what is refused, and what is skipped."""

    def __init__(self, started, edits={}, words="", refused="", skipped="", lost="", plan={}):
        self.started, self.refused, self.skipped, self.lost = named(started), named(refused), named(skipped), named(lost)
        self.edits, self.words, self.plan = edits, words.split(), {PATHS[name]: what for name, what in plan.items()}

    def text(self, graph):
        """What the run says."""
        lines = ""
        for entry in graph:
            how = ("skipped\n" if entry[:2] in self.skipped else "failed\nno\n" if entry[:2] in self.refused
                   else "passed\n" if entry[:2] in self.started else None)
            if how:
                lines += f"Compiling into {entry.library.decode()}: {entry.path.decode()} {how}"
        return lines + ("Compile failed\n" if self.refused else "Compile passed\n" if self.started else "Re-compile not needed\n")

    def answer(self, graph):
        if self.lost:
            library, path = (part.decode() for part in self.lost[0])
            return 3, b"", f"vunit_run: fault of child\nvunit_run: {library}, {path}: end: its code, 75, says that it has no answer\n".encode()
        return 1 if self.refused else 0, self.text(graph).encode(), b""

    def follow(self, name, slots):
        write("project", self.edits)
        write(".", {"plan": json.dumps(self.plan)})
        given = environment("requests") | {"PLAN": os.path.abspath("plan"), "ENDS": os.path.abspath("ends")}
        shutil.rmtree("ends", ignore_errors=True)
        os.mkdir("ends")
        graph = graph_of("project")
        compiled, built = built_over(graph, [] if "--clean" in self.words else records_of("project"),
                                     lambda request: planned_compiler.artefact_of(request, self.plan))
        if not self.lost and (not self.refused or "-k" in self.words) and [graph[at][:2] for at in compiled] != self.started:
            fail(name, f"by the rule {[graph[at][1] for at in compiled]} are started, and by hand {self.started}")
        ran = run("project", "--compile", "-p", str(slots), *self.words, env=given)
        if ran != self.answer(graph):
            fail(name, f"it is {ran}\nand not {self.answer(graph)}")
        self.check_starts(name, graph, built, slots)
        if not self.refused and not self.lost:
            if stale := built_over(graph, records_of("project"), lambda request: None)[0]:
                fail(name, f"after it without a current record are {stale}")
            expect(name + ", and once more", "project", 0, build_text([]), "--compile", "-p", str(slots), env=given)

    def check_starts(self, name, graph, built, slots):
        """What was started, over what, in which order, and each after the end of all that it depends on."""
        place = {entry[:2]: at for at, entry in enumerate(graph)}
        starts, ends = requests_by_time("requests"), requests_by_time("ends")
        found = [read_request(request)[:2] for _, request in starts]
        if sorted(found) != sorted(self.started) or slots == 1 and found != self.started:
            fail(name, f"it started {found}\nand not {self.started}")
            return
        ended = {read_request(request)[:2]: at for at, request in ends}
        for at, request in starts:
            position = place[read_request(request)[:2]]
            for dep in graph[position].deps:
                if graph[dep][:2] in found and ended[graph[dep][:2]] > at:
                    fail(name, f"{graph[position].path} was started before the end of {graph[dep].path}")
            # (of what depends on a file that isn't built nothing is started)
            if request != request_of(asked_at(graph, position, built)):
                fail(name, f"{graph[position].path} was asked {read_request(request)}")


def requests_by_time(folder):
    """The requests that were left in a folder, each with its time."""
    found = []
    for name in sorted(os.listdir(folder), key=lambda name: int(name.split(".")[0])):
        with open(os.path.join(folder, name), "rb") as file:
            found.append((int(name.split(".")[0]), file.read()))
    return found


def restore(base="built"):
    shutil.rmtree("project", ignore_errors=True)
    shutil.copytree(base, "project")


def row(name, *steps, base="built", slots=(1, 3)):
    """Steps from a project with a record of each file."""
    for count in slots:
        restore(base)
        for number, step in enumerate(steps):
            step.follow(f"{name}, step {number + 1}, -p {count}", count)


project("project", FILES | listing())
Step("q p u1 u2 v w x").follow("a first build", 3)
os.rename("project", "built")

# A comment, of which what is made says nothing, and a note, of which it does, at each file; and back.
for one, users in USERS.items():
    row(f"a comment in {one}", Step(one, with_lines(**{one: COMMENT})), Step(one, with_lines(**{one: COMMENT * 2})), Step(one, with_lines(**{one: ""})))
    row(f"a note in {one}", Step(f"{one} {users}", with_lines(**{one: NOTE})), Step(one, with_lines(**{one: NOTE + COMMENT})),
        Step(f"{one} {users}", with_lines(**{one: ""})))
row("comments in p and in u1", Step("p u1", with_lines(p=COMMENT, u1=COMMENT)))
row("a comment in p, and a note in u1", Step("p u1 w", with_lines(p=COMMENT, u1=NOTE)))
row("a note in p, and a comment in u1", Step("p u1 u2 w x", with_lines(p=NOTE, u1=COMMENT)), Step("u1", with_lines(u1="")))
row("comments in all", Step("q p u1 u2 v w x", with_lines(**{one: COMMENT for one in USERS})))

# What p and its users end in which order.
for slow in "p", "u1", "u2", "v":
    plan = {slow: {"sleeps": 0.2}}
    row(f"a note in p, {slow} is slow", Step("p u1 u2 v w x", with_lines(p=NOTE, v=COMMENT), plan=plan), slots=(1, 2, 3, 8))
    row(f"a comment in p, and edits of its users, {slow} is slow",
        Step("p u1 u2 v w", with_lines(p=COMMENT, u1=NOTE, u2=COMMENT, v=COMMENT), plan=plan), slots=(1, 2, 3, 8))

# p uses q no more, and what is made of it is as before: its users no more depend on q. So it is where u1 uses q itself, but for u1.
row("p drops its use of q", Step("p u1 u2 w x", {PATHS["p"]: package("p")}), Step("p u1 u2 w x", with_lines(p="")))
row("p uses v too", Step("p u1 u2 w x", {PATHS["p"]: package("p", "low.q", "lib.v")}), Step("p u1 u2 w x", with_lines(p="")))
project("project", FILES | {PATHS["u1"]: package("u1", "low.q", "base.p")} | listing())
Step("q p u1 u2 v w x").follow("another first build", 3)
os.rename("project", "built_too")
row("p drops its use of q, which u1 uses", Step("p u2 x", {PATHS["p"]: package("p")}), Step("p u2 x", with_lines(p="")), base="built_too")
row("u1 drops its use of q, which p uses", Step("u1", with_lines(u1="")), base="built_too")
row("q is made into something else, but p drops it", Step("q p u1 u2 w x", {**with_lines(q=NOTE), PATHS["p"]: package("p")}), base="built_too")

# What is refused, and mended: what was current before is so after it.
row("p is refused", Step("p", with_lines(p=REFUSED), refused="p"), Step("", with_lines(p="")))
row("p is refused, -k", Step("p", with_lines(p=REFUSED), "-k", "p", "u1 u2 w x"), Step("", with_lines(p="")))
row("p is refused twice, and mended with a comment", Step("p", with_lines(p=REFUSED), refused="p"), Step("p", with_lines(p=COMMENT + REFUSED), "-k", "p", "u1 u2 w x"),
    Step("p", with_lines(p=COMMENT)))
row("p is refused, and a note in v", Step("p", with_lines(p=REFUSED, v=NOTE), refused="p"), Step("v", with_lines(p="")), slots=(1,))
row("p is refused, and a note in v, more at once", Step("p v", with_lines(p=REFUSED, v=NOTE), refused="p", plan={"v": {"sleeps": 0.2}}), Step("", with_lines(p="")), slots=(2, 3))
row("p is refused, and a note in v, -k", Step("p v", with_lines(p=REFUSED, v=NOTE), "-k", "p", "u1 u2 w x"), Step("", with_lines(p="")))
row("a comment in p, and u1 is refused", Step("p u1", with_lines(p=COMMENT, u1=REFUSED), refused="u1"), Step("", with_lines(u1="")))
row("a comment in p, and u1 is refused, -k", Step("p u1", with_lines(p=COMMENT, u1=REFUSED), "-k", "u1", "w"), Step("p", with_lines(p="", u1="")))
row("a note in p, and u1 is refused", Step("p u1", with_lines(p=NOTE, u1=REFUSED), refused="u1"), Step("u1 u2 w x", with_lines(u1="")), slots=(1,))
row("a note in p, and u1 is refused, more at once", Step("p u1 u2", with_lines(p=NOTE, u1=REFUSED), refused="u1", plan={"u1": {"sleeps": 0.2}, "u2": {"sleeps": 2}}),
    Step("u1 w x", with_lines(u1="")), slots=(2, 3))
row("a note in p, and u1 is refused, -k", Step("p u1 u2 x", with_lines(p=NOTE, u1=REFUSED), "-k", "u1", "w"), Step("u1 w", with_lines(u1="")))
row("q is refused, -k", Step("q", with_lines(q=REFUSED), "-k", "q", "p u1 u2 w x"), Step("", with_lines(q="")))

# A record of p was made and none of its users, and p is edited back: p alone is compiled, since the others were made over it.
row("p is edited back after a refusal", Step("p u1", with_lines(p=NOTE, u1=REFUSED), refused="u1"), Step("p", with_lines(p="", u1="")), slots=(1,))
row("p is edited back after a refusal, and u2 was compiled", Step("p u1 u2 x", with_lines(p=NOTE, u1=REFUSED), "-k", "u1", "w"),
    Step("p u2 x", with_lines(p="", u1="")))
row("p is edited once more after a refusal", Step("p u1", with_lines(p=NOTE, u1=REFUSED), refused="u1"), Step("p u1 u2 w x", with_lines(p=NOTE * 2, u1="")), slots=(1,))


def stop(edits, plan, until):
    """A run that is killed when the compiler of a file was started."""
    restore()
    write("project", edits)
    write(".", {"plan": json.dumps({PATHS[name]: what for name, what in plan.items()})})
    # (running leftovers write their requests elsewhere than the next run)
    folder = tempfile.mkdtemp(dir=".")
    given = environment(folder) | {"PLAN": os.path.abspath("plan")}
    stopped = subprocess.Popen([PROGRAM, "--compile", "-p", "3"], cwd="project", env=given, stdin=subprocess.DEVNULL, stdout=subprocess.DEVNULL,
                               stderr=subprocess.DEVNULL)
    last = time.monotonic() + 20
    while named(until)[0] not in started_in(folder) and time.monotonic() < last:
        time.sleep(0.005)
    stopped.kill()
    if stopped.wait() != -9:
        fail("a stop", f"it ended with {stopped.returncode}")


def read(path):
    with open(path, "rb") as file:
        return file.read()


SLOW = {"sleeps": 2}
for name, edits, plan, until, step in [
    ("p is edited back after a stop", with_lines(p=NOTE), {"u1": SLOW, "u2": SLOW}, "u1", Step("p", with_lines(p=""))),
    ("p isn't edited back after a stop", with_lines(p=NOTE), {"u1": SLOW, "u2": SLOW}, "u1", Step("u1 u2 w x")),
    ("p is edited back after a stop while it was compiled", with_lines(p=NOTE), {"p": SLOW}, "p", Step("", with_lines(p=""))),
    ("a comment in p, and a stop while u1 was compiled", with_lines(p=COMMENT, u1=NOTE), {"u1": SLOW}, "u1", Step("u1 w")),
]:
    stop(edits, plan, until)
    step.follow(name, 3)

# Another order: of what w depends on, and of what nobody depends on together.
swapped = LIBRARIES | {"lib": ["lib/u2.vhd", "lib/u1.vhd", "lib/v.vhd"]}
row("u1 and u2 are swapped", Step("w", listing(swapped)), Step("w", listing()))
row("u1 and u2 are swapped, and a comment in u1", Step("u1 w", {**listing(swapped), **with_lines(u1=COMMENT)}))
row("v and the libraries are elsewhere", Step("", listing({"top": LIBRARIES["top"], "lib": ["lib/v.vhd", *LIBRARIES["lib"][:2]], "base": LIBRARIES["base"], "low": LIBRARIES["low"]})))

# The words of compilers.
row("options of p's library", Step("p", listing(options={"base": ["-x"]})), Step("p", listing()))
row("options of p's library, and a note in it", Step("p u1 u2 w x", {**listing(options={"base": ["-x"]}), **with_lines(p=NOTE)}))
row("options of the library of u1 and u2", Step("u1 u2 v", listing(options={"lib": ["-x"]})))
row("a word more of all compilers", Step("q p u1 u2 v w x", listing(compiler=[*COMPILER, "-x"])), Step("q p u1 u2 v w x", listing()))

# Other libraries. What is moved back still has its record.
moved = LIBRARIES | {"lib": ["lib/u1.vhd", "lib/u2.vhd"], "top": ["lib/v.vhd", *LIBRARIES["top"]]}
row("v is moved to another library", Step("top=v", listing(moved)), Step("", listing()), Step("", listing(moved)))
row("v is in two libraries", Step("top=v", listing(LIBRARIES | {"top": ["lib/v.vhd", *LIBRARIES["top"]]})))
moved = LIBRARIES | {"lib": ["lib/u1.vhd", "lib/v.vhd"], "top": ["lib/u2.vhd", *LIBRARIES["top"]]}
users = {PATHS["w"]: package("w", "lib.u1", "work.u2"), PATHS["x"]: package("x", "work.u2")}
row("u2 is moved to the library of its users", Step("top=u2 w x", listing(moved) | users), Step("w x", listing() | with_lines(w="", x="")))
moved = {"low": ["low/q.vhd", "base/p.vhd"], "lib": LIBRARIES["lib"], "top": LIBRARIES["top"]}
users = {PATHS["p"]: package("p", "work.q"), PATHS["u1"]: package("u1", "low.p"), PATHS["u2"]: package("u2", "low.p")}
row("p is moved to the library of q", Step("low=p u1 u2 w x", listing(moved) | users), Step("u1 u2 w x", listing() | with_lines(p="", u1="", u2="")))

# A compiler that isn't a function: what it made the last time counts.
salted = {"p": {"salt": "s"}}
row("another artefact of p", Step("p u1 u2 w x", with_lines(p=COMMENT), plan=salted), Step("p", with_lines(p=""), plan=salted), Step("p u1 u2 w x", with_lines(p=COMMENT)))
row("another artefact of u1", Step("u1 w", with_lines(u1=COMMENT), plan={"u1": {"salt": "s"}}))
row("another artefact, but nothing is asked", Step("", plan=salted))
row("another artefact of p by its text of before", Step("p u1", with_lines(p=NOTE, u1=REFUSED), refused="u1"), Step("p u1 u2 w x", with_lines(p="", u1=""), plan=salted), slots=(1,))
row("emptied, with another artefact of p", Step("q p u1 u2 v w x", words="--clean", plan=salted), Step("p u1 u2 w x", with_lines(p=COMMENT)))

# A compiler is lost, while p is compiled and its users are to be looked at; and that of p is.
row("v is lost", Step("p v", with_lines(p=COMMENT, v=COMMENT), lost="v", plan={"v": {"code": 75}, "p": {"sleeps": 0.3}}), Step("v"), slots=(2, 3))
row("p is lost", Step("p", with_lines(p=NOTE), lost="p", plan={"p": {"code": 75}}), Step("p u1 u2 w x"))

# 4,096 files in a chain, the first of which gets a comment: one compiler is started, and the other files are only looked at.
# That takes less than half a second more than a run with nothing to do, in which the same store is opened, of 67 million bytes.
# It is written here: each file's record is over those of all before it.
COUNT, MOST, ROUNDS = 4096, 0.5, 9
TIMED = """begun=$(date +%s%N)
cat >/dev/null
printf 'package %s' "$(basename "$PWD")"
echo "$begun $(date +%s%N)" >>../timed
"""


def chain(folder):
    files = [f"p{at:04}.vhd" for at in range(COUNT)]
    texts = [package(f"p{at:04}", *[f"work.p{at - 1:04}"] * (at > 0)) for at in range(COUNT)]
    project(folder, dict(zip(files, texts)) | {"timed.sh": TIMED, "vunit.toml": toml({"lib": ["*.vhd"]}, ["sh", "timed.sh"])})
    given, words = [], b"\2\0\0\0" + spelled(b"sh") + spelled(b"timed.sh")
    made = b"package " + os.path.basename(folder).encode()
    for at, (path, text) in enumerate(zip(files, texts)):
        below = len(range(at)).to_bytes(4, "little") + array.array("Q", range(at)).tobytes()
        artefact = b"\1" + spelled(made) if at == 0 else b"\0" + (1).to_bytes(8, "little")
        given.append(b"\1" + spelled(b"lib") + spelled(path.encode()) + words + b"\1" + spelled(text.encode()) + below + artefact)
    write(folder, {"vunit_out/store_a": side_of(FORM, 1, given), "vunit_out/store_b": b""})


def chain_run(is_edited):
    """The seconds of a run over the chain, of which the first file has a comment more or not, but for those of the one compiler."""
    if is_edited:
        with open("chain/p0000.vhd", "a") as file:
            file.write(COMMENT)
    write(".", {"timed": ""})
    begun = time.perf_counter()
    ran = run("chain", "--compile", "-p", "3")
    took = time.perf_counter() - begun
    if ran != (0, build_text([(b"lib", b"p0000.vhd")] * is_edited).encode(), b""):
        fail("a chain", f"it is {ran}")
    starts = [line.split() for line in read("timed").decode().splitlines()]
    if len(starts) != is_edited:
        fail("a chain", f"{len(starts)} compilers were started")
    return took - sum(int(end) - int(begin) for begin, end in starts) / 1e9


with tempfile.TemporaryDirectory(dir="/dev/shm" if os.access("/dev/shm", os.W_OK) else ".") as room:
    os.chdir(room)
    chain("chain")
    nothing, edited = [], []
    # (others may run, so the least of some rounds counts)
    while len(edited) < ROUNDS and (not edited or min(edited) - min(nothing) >= MOST):
        nothing.append(chain_run(False))
        edited.append(chain_run(True))
    print(f"a chain of {COUNT} files: {min(edited):.3f} s without the compiler of the first, which has a comment more, and {min(nothing):.3f} s with nothing to do")
    if min(edited) - min(nothing) >= MOST:
        fail("a chain", f"it takes {edited} seconds, and {nothing} with nothing to do")
    os.chdir("/")
end()
END
