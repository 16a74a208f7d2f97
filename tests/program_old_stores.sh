#!/bin/sh
# Stores of form 2, which the program takes over as it opens them: those of tests/data/old_stores, which a program wrote that
# wrote that form, and others that are written here. Their records stand for the same as another reader finds, byte for byte.
# After edits exactly the files without a current record among these are compiled. Wherever the opening is stopped, and
# whichever of its calls fails, the next run starts the same. If the store is to be emptied, nothing is taken over from it.
#
# (What a program does over such a store that knows form 2 alone, as docs/FORMATS.md has it, isn't tried: that program isn't here.)
. "$TOP/tests/support/needs.sh"
needs python3 tomllib strace
PYTHONPATH=$TOP/tests/support exec python3 -B - <<'END'
import os, random, re, resource, shutil, struct, subprocess, tempfile

from late_calls import is_passed_over
from store_reader import (FORM, OLD_FORM, Carried, Entry, RequestRecord, ViewRecord, built_over, counting_side, graph_of, migrated_of, name_asked,
                          payloads, payloads_of_views, read_request, read_sides, records_in, records_of, side_of, view_at, views_in)
from trial import PROGRAM, build_text, end, environment, expect, fail, run, started_in, toml, write

DATA = os.path.join(os.environ["TOP"], "tests", "data", "old_stores")
ORDER = ["lib/p.vhd", "lib/l.vhd", "lib/r.vhd", "lib/v.vhd", "top/t.vhd", "top/u.vhd"]
# By hand: who has no current record where a store is opened, and who uses a file.
WITHOUT = {"whole": [], "edited": [], "refused": ["lib/l.vhd", "lib/r.vhd", "top/t.vhd", "top/u.vhd"], "one_refused": ["top/t.vhd"],
           "compacted": ["top/t.vhd"], "stopped": ["lib/v.vhd"]}
USERS = {"lib/p.vhd": ["lib/l.vhd", "lib/r.vhd", "top/t.vhd", "top/u.vhd"], "lib/l.vhd": ["top/t.vhd"], "lib/r.vhd": ["top/t.vhd"],
         "lib/v.vhd": [], "top/t.vhd": [], "top/u.vhd": []}
CALLS = ["?mkdir,mkdirat", "?open,openat", "flock", "ftruncate", "fsync", "pread64", "pwrite64", "fdatasync"]
STORE = ["vunit_out", "vunit_out/store_a", "vunit_out/store_b"]
SIDES = ["project/vunit_out/store_a", "project/vunit_out/store_b"]


def artefact_of(request):
    """What `child-analyse` gives for packages."""
    text = read_request(request)[2].decode()
    lines = re.findall(r"(?m)^package (\w+) is$", text), re.findall(r"(?m)^-- child: (.*)$", text)
    if any(line.startswith("refuse ") for line in lines[1]):
        return None
    return "".join([f"unit package {name}\n" for name in lines[0]] + [f"script {line}\n" for line in lines[1]]).encode()


def read(path):
    with open(path, "rb") as file:
        return file.read()


def lay_out(store, sides=None):
    """The project as it is when a store is opened, with the two sides of this or with others."""
    shutil.rmtree("project", ignore_errors=True)
    shutil.copytree(os.path.join(DATA, "project"), "project")
    shutil.copytree(os.path.join(DATA, store), "project", dirs_exist_ok=True)
    shutil.copy(os.path.join(os.environ["TOP"], "tests", "support", "analysing.sh"), "project")
    os.mkdir("project/vunit_out")
    for side, data in zip("ab", sides or [read(f"project/store_{side}") for side in "ab"]):
        os.remove(f"project/store_{side}")
        write("project", {f"vunit_out/store_{side}": data})


def append(path, line):
    with open(os.path.join("project", path), "a") as file:
        file.write(line + "\n")


def compiled_now(records):
    """What a build compiles over these records, as libraries and paths."""
    graph = graph_of("project")
    return [graph[at][:2] for at in built_over(graph, records, artefact_of)[0]]


def named(paths):
    """Files in the order of compilation."""
    return [tuple(part.encode() for part in (path.split("/")[0], path)) for path in ORDER if path in paths]


def is_live(side, form):
    return counting_side([side], form) is not None


def check_build(name, paths=None, *words, records=None):
    """A run compiles exactly what the records of the store ask for, or those that are given; by hand it is these paths. After it the store has
    these records and those of what was compiled, the next run has nothing to do, and writes nothing."""
    records = records_of("project") if records is None else records
    wanted = compiled_now(records)
    if paths is not None and wanted != named(paths):
        fail(name, f"by the records {wanted} is compiled, and by hand {named(paths)}")
    expect(name, "project", 0, build_text(wanted), "--compile", *words, env=environment("requests"))
    if sorted(started_in("requests")) != sorted(wanted):
        fail(name, f"it started {started_in('requests')}\nand not {wanted}")
    left, sides = records_of("project"), read_sides("project")
    if left[:len(records)] != records or sorted(map(name_asked, left[len(records):])) != sorted(wanted) or compiled_now(left):
        fail(name, f"it left {left}\nof {records}")
    if not any(is_live(side, FORM) for side in sides):
        fail(name, f"no side of form {FORM} is live: {sides}")
    times = [os.stat(side).st_mtime_ns for side in SIDES]
    expect(name + ", and once more", "project", 0, build_text([]), "--compile", env=environment("requests"))
    if os.listdir("requests"):
        fail(name, f"the run after it started {os.listdir('requests')}")
    if (read_sides("project"), [os.stat(side).st_mtime_ns for side in SIDES]) != (sides, times):
        fail(name, "the run after it wrote into the store")


def taken_over(sides):
    """The two sides after an opening that took over what is on them: the side that counted stays, but for a gate that is open
    after its last payload, and the other has what stands for its records."""
    counts = counting_side(sides, OLD_FORM)
    _, gate = payloads(counts)
    stays = counts[:gate] + (b"\0" if counts[gate] == 1 else counts[gate:gate + 1]) + counts[gate + 1:]
    made = side_of(FORM, 1, Carried(migrated_of(views_in(sides))).payloads)
    return [stays, made] if counts is sides[0] else [made, stays]


def check_taken(name, sides, paths=None, builds=True):
    """An opening of these sides makes what it is to make of them, and a build compiles what is due over that."""
    lay_out("whole", sides)
    wanted = taken_over(sides)
    # (a build without files has nothing to compile)
    expect(name + ", opened", "project", 0, build_text([]), "--compile", "-m", "no.such.test", env=environment("requests"))
    if read_sides("project") != wanted:
        fail(name, f"the store is {read_sides('project')}\nand not {wanted}")
    if builds:
        check_build(name, paths, records=migrated_of(views_in(sides)))


def traced(calls, *words, inject="", number=0):
    """A run under strace, in which one of these calls is injected into, and whether there was such a call."""
    before = ["strace", "--quiet=all", "-xx", "-y", "-s", "100000", "-o", "../calls", "-e", "trace=" + ",".join(CALLS)]
    if inject:
        before += ["-e", f"inject={calls}:{inject}:when={number}"]
    for path in STORE:
        before += ["-P", path, "-P", os.path.abspath(os.path.join("project", path))]
    ran = run("project", "--compile", *words, env=environment("requests"), before=before)
    return ran, "(INJECTED)" in read("calls").decode() if "error" in inject else ran[0] == -9


root = tempfile.TemporaryDirectory(dir="/dev/shm" if os.access("/dev/shm", os.W_OK) else ".")
os.chdir(root.name)
OLD = {}
for store in WITHOUT:
    OLD[store] = [read(os.path.join(DATA, store, f"store_{side}")) for side in "ab"]

# Each store unchanged, and after an edit of each file in turn: by a comment, and by a line that changes its artefact.
for store, without in WITHOUT.items():
    old = OLD[store]
    lay_out(store)
    expect(f"{store}, opened", "project", 0, build_text([]), "--compile", "-m", "no.such.test", env=environment("requests"))
    if read_sides("project") != taken_over(old):
        fail(store, f"the store is {read_sides('project')}\nand not {taken_over(old)}")
    check_build(store + ", after it was opened", without)
    lay_out(store)
    check_build(store, without)
    for path, users in USERS.items():
        lay_out(store)
        append(path, "-- a comment")
        check_build(f"{store}, {path} with a comment", {*without, path})
        lay_out(store)
        append(path, "-- child: note 7")
        check_build(f"{store}, {path} with a note", {*without, path, *users}, "-p", "3")
    lay_out(store)
    write("project", {"vunit.toml": toml({"lib": ["lib/*.vhd"], "top": ["top/*.vhd"]}, ["sh", "analysing.sh"], {"lib": ["-x"]})})
    check_build(f"{store}, another option", {*without, *ORDER[:4]})
    lay_out(store)
    check_build(f"{store}, opened by a list", without)

# A run that lists, and one whose project is refused, take over nothing.
lay_out("edited")
expect("a list of the files", "project", 0, "".join(f"{path[:3]}, {path}\n" for path in ORDER) + "Listed 6 files\n", "-f")
write("project", {"top/u.vhd": "foo"})
run("project", "--compile")
if read_sides("project") != OLD["edited"]:
    fail("a list and a refusal", "the store was written")

# A store of form 2 that is emptied: nothing of it is read or taken over.
for store in WITHOUT:
    lay_out(store)
    check_build(f"{store}, emptied", ORDER, "--clean", records=[])
    if any(is_live(side, OLD_FORM) for side in read_sides("project")):
        fail(f"{store}, emptied", "its old side is live")

# Stopped at each call on the store until the first compiler is started, and run again.
def stopped(store, *words):
    old = migrated_of(views_in(OLD[store]))
    for calls in CALLS:
        number, has_started = 0, False
        while not has_started:
            lay_out(store)
            number += 1
            _, was_there = traced(calls, *words, inject="signal=KILL", number=number)
            if not was_there:
                break
            name = f"{store}, {words} stopped at {calls} number {number}"
            left, has_started = records_of("project"), started_in("requests") != []
            if left != old and (not words or left):
                fail(name, f"it left {left}\nof {old}")
            check_build(name, WITHOUT[store] if left == old else ORDER)
        if number == 1 and calls not in ("ftruncate", "pread64"):
            fail(store, f"there is no {calls}")


for store in "whole", "one_refused", "compacted":
    stopped(store)
    stopped(store, "--clean")

# Each call on the store fails.
for calls in CALLS:
    number = 0
    while True:
        lay_out("one_refused")
        number += 1
        ran, was_there = traced(calls, inject="error=EIO", number=number)
        if not was_there:
            break
        name = f"{calls} number {number} fails"
        if is_passed_over(read("calls").decode()):
            if ran[0] != 0 or ran[2]:
                fail(f"{name}, which is passed over", f"it is {ran}")
            continue
        if ran[:2] != (3, b"") or not re.fullmatch(r"vunit_run: fault of disk\nvunit_run: [^\n]*: Input/output error \(os error 5\)\n", ran[2].decode()):
            fail(name, f"it is {ran}")
        old, left = migrated_of(views_in(OLD["one_refused"])), records_of("project")
        if left[:len(old)] != old or started_in("requests") not in ([], named(["top/t.vhd"])):
            fail(name, f"it left {left} and started {started_in('requests')}")
        check_build(name)

# Stopped inside a write, as a medium may leave it: a part of it is there, and what is behind may be anything.
def writes_in():
    """The changes of the last traced run: the side, and None and a length to which it is cut, or an offset and bytes."""
    found = []
    for line in read("calls").decode().splitlines():
        if cut := re.match(r"ftruncate\(\d+<[^>]*>, (\d+)\)", line):
            found.append((line[:line.index(">")].endswith(r"\x62"), None, int(cut[1])))
        elif put := re.match(r'pwrite64\(\d+<([^>]*)>, "([^"]*)", \d+, (\d+)\)', line):
            found.append((put[1].endswith(r"\x62"), int(put[3]), bytes.fromhex(put[2].replace(r"\x", ""))))
    return found


def changed(side, at, data):
    if at is None:
        return side[:data]
    return side[:at].ljust(at, b"\0") + data + side[at + len(data):]


chance = random.Random(17)
for store in WITHOUT:
    lay_out(store)
    traced("", "-m", "no.such.test")
    sides, old = list(OLD[store]), migrated_of(views_in(OLD[store]))
    writes = writes_in()
    if len(writes) < 4:
        fail(store, f"it is taken over by {writes}")
    for number, (b, at, data) in enumerate(writes):
        images = [sides[b]]
        if at is not None:
            images += [changed(sides[b], at, data[:size]) for size in {0, 1, len(data) // 2, len(data) - 1}]
            images += [changed(sides[b], at, bytes([value])) for value in (0, 1, 2, 37)] if len(data) == 1 else [
                changed(sides[b], at, bytes(len(data))), changed(sides[b], at, chance.randbytes(len(data)))]
        for image in images:
            torn = [image if b == at else side for at, side in enumerate(sides)]
            if records_in(torn) != old:
                fail(store, f"write {number}: {torn} has {records_in(torn)}\nand not {old}")
            lay_out(store, torn)
            check_build(f"{store}, stopped in write {number}", WITHOUT[store])
        sides[b] = changed(sides[b], at, data)
    if sides != taken_over(OLD[store]):
        fail(store, f"by its writes the store is {sides}")

# Sides that are written here, of the payloads of one that is whole.
given = payloads(OLD["whole"][0])[0]
stop = OLD["stopped"][0]
last = 2**64 - 1
for name, sides, paths in [
    ("the second side", [b"", side_of(OLD_FORM, 1, given)], []),
    ("the second is newer", [side_of(OLD_FORM, 1, given[:3]), side_of(OLD_FORM, 2, given)], []),
    ("the first is newer", [side_of(OLD_FORM, 2, given), side_of(OLD_FORM, 1, given[:3])], []),
    ("the first is newer, and has less", [side_of(OLD_FORM, 2, given[:3]), side_of(OLD_FORM, 1, given)], ORDER[3:]),
    ("two of one generation", [side_of(OLD_FORM, 3, given[:5]), side_of(OLD_FORM, 3, given)], ORDER[5:]),
    ("the last generation", [side_of(OLD_FORM, last, given), side_of(OLD_FORM, 1, given[:3])], []),
    ("the last generation on the second side", [side_of(OLD_FORM, 1, given[:3]), side_of(OLD_FORM, last, given)], []),
    ("no payload", [side_of(OLD_FORM, 1, []), b""], ORDER),
    ("an open gate at the end", [side_of(OLD_FORM, 1, given)[:-1] + b"\1", b""], []),
    ("an open gate and half a payload", [side_of(OLD_FORM, 1, given[:5])[:-1] + b"\1" + struct.pack("<I", len(given[5])) + given[5][:9], b""], ORDER[5:]),
    ("another gate and a payload", [stop[:payloads(stop)[1]] + b"\x25" + stop[payloads(stop)[1] + 1:], b""], []),
    ("each payload twice", [side_of(OLD_FORM, 1, [one for one in given for _ in range(2)]), b""], []),
    ("the payloads from the last on", [side_of(OLD_FORM, 1, given[::-1]), b""], None),
    ("without the first", [side_of(OLD_FORM, 1, given[1:]), b""], None),
    ("payloads of nothing known", [side_of(OLD_FORM, 1, [b"", b"\3", *given, b"\0" * 9, b""]), b""], []),
    ("another artefact of p", [side_of(OLD_FORM, 1, [*given, b"\0" + bytes(8) + b"\2\0\0\0no"]), b""], []),
    ("a side of form 1 beside it", [side_of(1, 9, given), side_of(OLD_FORM, 1, given)], []),
    ("18 bytes beside it", [side_of(FORM, 9, [])[:18], side_of(OLD_FORM, 1, given)], []),
    ("a side of the newer form that isn't live", [b"\0" + side_of(FORM, 9, [])[1:], side_of(OLD_FORM, 1, given)], []),
]:
    check_taken(name, sides, paths)
for _ in range(15):
    one = bytearray(side_of(OLD_FORM, 1, given))
    for _ in range(chance.choice([1, 1, 2])):
        # (the header stays)
        one[chance.randrange(18, len(one))] = chance.choice([0, 1, 2, 255, chance.randrange(256)])
    check_taken(f"other bytes than those of a whole store, {bytes(one).hex()}", [bytes(one), b""])

# Sides by chance: of six files, in histories of texts, commands and dependencies, now and then one was recorded.
NAMES = [(library, path) for library in (b"lib", b"other") for path in (b"a.vhd", b"b.vhd", b"c.vhd")]


def graph_by_chance(chance, old):
    """A graph that differs a bit from an old one."""
    graph = []
    for at, name in enumerate(NAMES):
        is_new = not old or chance.random() < 0.3
        needs = {dep for dep in range(at) if chance.random() < 0.3} if is_new else set(old[at].deps)
        deps = sorted(needs | {below for dep in needs for below in graph[dep].deps})
        text = chance.choice([b"x", b"y", b""]) if is_new else old[at].text
        command = chance.choice([(b"cc",), (b"cc", b"-x")]) if is_new else old[at].command
        graph.append(Entry(*name, command, text, tuple(deps)))
    return graph


def views_by_chance(seed):
    chance, graph, records = random.Random(seed), [], []
    for _ in range(chance.randint(1, 6)):
        graph = graph_by_chance(chance, graph)
        some = chance.random()
        records += [ViewRecord(view_at(graph, at), chance.choice([b"1", b"2", b""])) for at in range(len(graph)) if chance.random() < some]
    return records


kept = []
for seed in range(150):
    records = views_by_chance(seed)
    sides = [side_of(OLD_FORM, 1, payloads_of_views(records)), b""]
    if views_in(sides) != records:
        fail(f"by chance, {seed}", f"{sides} has {views_in(sides)}\nand not {records}")
    check_taken(f"by chance, {seed}", sides, builds=False)
    names = len({record.view[-1][:2] for record in records})
    kept.append((len(migrated_of(records)), names))
# (some stores keep everything, some nothing, and most a part)
if not (any(a == b > 3 for a, b in kept) and any(a == 0 < b for a, b in kept) and sum(0 < a < b for a, b in kept) > 50):
    fail("by chance", f"of {kept} records stand")

# In ever more room, from where the program just starts to where a run ends well: it ends well, or with status 4 and nothing was
# written.
def limited(kilobytes, *words):
    def limit():
        resource.setrlimit(resource.RLIMIT_AS, (kilobytes * 1024, resource.RLIM_INFINITY))
    ran = subprocess.run([PROGRAM, *words], cwd="project", capture_output=True, preexec_fn=limit, stdin=subprocess.DEVNULL, timeout=120)
    return ran.returncode, ran.stdout, ran.stderr


def least(is_enough, low, high=262144):
    """The least number of kilobytes, to within 8, that is enough."""
    while high - low > 8:
        middle = (low + high) // 2
        low, high = (low, middle) if is_enough(middle) else (middle, high)
    return high


def is_enough(kilobytes):
    lay_out("whole", sides)
    return limited(kilobytes, "--compile") == (0, build_text([]).encode(), b"")


files = [Entry(b"lib", b"f%04d.vhd" % at, (b"cc",), b"-- the text of file %04d\n" % at * 20, ()) for at in range(2000)]
sides = [side_of(OLD_FORM, 1, given + payloads_of_views([ViewRecord((entry,), b"made of " + entry.path) for entry in files])), b""]
starts = least(lambda kilobytes: limited(kilobytes, "--no-word")[0] == 2, 256)
enough, outs = least(is_enough, starts), 0
for at in range(24):
    kilobytes = starts + (enough - starts) * at // 22
    lay_out("whole", sides)
    ran, left = limited(kilobytes, "--compile"), read_sides("project")
    outs += ran[0] == 4
    if (ran, left) not in (((0, build_text([]).encode(), b""), taken_over(sides)), ((4, b"", b"vunit_run: out of memory\n"), sides)):
        fail(f"in {kilobytes} kB of {enough}", f"it is {ran}, and leaves {[side[:40] for side in left]}")
if outs < 10:
    fail("in ever more room", f"only {outs} runs were out of memory")

# A side of the newer form counts, whatever the generation of the older one beside it.
whole = migrated_of(views_in(OLD["whole"]))
beside = [record if record.asked.path != b"lib/v.vhd" else RequestRecord(record.asked._replace(text=b"package v is\n"), record.artefact) for record in whole]
for name, records, paths in [("whole", whole, []), ("of another v", beside, ["lib/v.vhd"]), ("of p alone", whole[:1], ORDER[1:]), ("without a record", [], ORDER)]:
    for generation in 1, 2, last:
        for turn in 1, -1:
            sides = [side_of(OLD_FORM, generation, given), side_of(FORM, 1, Carried(records).payloads)][::turn]
            lay_out("whole", sides)
            check_build(f"a newer side, {name}, beside generation {generation}, {turn}", paths, records=records)
            if read_sides("project")[::turn][0] != sides[::turn][0]:
                fail(f"a newer side, {name}", "the older one was written")

# The first compaction of a store that was taken over takes the older side's place.
lay_out("edited")
check_build("before a compaction", [])
for letter in "ab":
    write("project", {"lib/v.vhd": "package v is\nend package v;\n" + f"-- {letter * 6}\n" * 60000})
    check_build(f"v is long, {letter}", ["lib/v.vhd"])
write("project", {"lib/v.vhd": "package v is\nend package v;\n"})
expect("v is short", "project", 0, build_text(named(["lib/v.vhd"])), "--compile", env=environment("requests"))
expect("a compaction", "project", 0, build_text([]), "--compile", env=environment("requests"))
if [is_live(side, FORM) for side in read_sides("project")] != [True, True] or max(map(len, read_sides("project"))) < 2**20:
    fail("a compaction", f"the sides are {[side[:19] for side in read_sides('project')]}")
check_build("after a compaction", [])
os.chdir("/")
end()
END
