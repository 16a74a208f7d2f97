#!/bin/sh
# A store that can't be opened or written is a fault of the disk with status 3: nothing is started where that shows at the
# opening, and no record is lost. Whatever bytes a store has, they stand for some records, and no others are believed.
. "$TOP/tests/support/needs.sh"
needs python3 tomllib
# (a small disk is mounted, which no other process sees)
own=
if [ "$(id -u)" -eq 0 ] && unshare -m true 2>/dev/null; then own="unshare -m"; fi
PYTHONPATH=$TOP/tests/support exec $own python3 -B - <<'END'
import fcntl, os, random, shutil, stat, struct, subprocess, time

from store_reader import FORM, OLD_FORM, Requests, payloads, read_sides, records_of, spelled
from trial import COMPILER, PROGRAM, build_text, end, environment, expect, fail, package, project, stale_of, started_in, toml, write

A, B, OUT = "project/vunit_out/store_a", "project/vunit_out/store_b", "project/vunit_out"
FILES = {"p.vhd": package("p"), "u1.vhd": package("u1", "work.p"), "u2.vhd": package("u2", "work.p"), "v.vhd": package("v")}
FILES["vunit.toml"] = toml({"lib": ["*.vhd"]}, COMPILER)
A_FILE = "it isn't a regular file with one name"
DENIED, FULL = "Permission denied (os error 13)", "No space left on device (os error 28)"
NOBODY = ["setpriv", "--reuid=65534", "--regid=65534", "--clear-groups"]
root = os.geteuid() == 0


def check_build(name, *words):
    """A run starts exactly what the other reader finds without a record, and the next one nothing."""
    stale = stale_of("project")
    expect(name, "project", 0, build_text(stale), "--compile", *words, env=environment("requests"))
    if sorted(started_in("requests")) != sorted(stale):
        fail(name, f"it started {started_in('requests')}\nand not {stale}")
    if stale_of("project"):
        fail(name, f"after it these are stale: {stale_of('project')}")
    expect(name + ", and once more", "project", 0, build_text([]), "--compile", env=environment("requests"))


def put(side, data):
    with open(side, "wb") as file:
        file.write(data)


def restore():
    """The project with a record of each file."""
    shutil.rmtree("project", ignore_errors=True)
    shutil.copytree("built", "project")


def fault(of, call, said):
    """What standard error has after a fault of the disk."""
    return f"vunit_run: fault of disk\nvunit_run: {of}: {call}: {said}\n"


def check_fault(name, of, call, said, before=()):
    """A run over this store is a fault of this call, starts nothing and says nothing."""
    expect(name, "project", 3, "", "--compile", error=fault(of, call, said), env=environment("requests"), before=before, seconds=20)
    if os.listdir("requests"):
        fail(name, f"it started {os.listdir('requests')}")


project("project", FILES)
check_build("a first build")
shutil.copytree("project", "built")
good = read_sides("built")
live = max(good, key=len)

# A run with nothing to do writes nothing.
times = [os.stat(side).st_mtime_ns for side in (A, B)]
expect("nothing to do", "project", 0, build_text([]), "--compile")
if (read_sides("project"), [os.stat(side).st_mtime_ns for side in (A, B)]) != (good, times):
    fail("nothing to do", "the store was written")

# Another object than a file of its own in the place of a side.
def folder(path): os.mkdir(path)
def pipe(path): os.mkfifo(path)
def link_to_nothing(path): os.symlink("nothing", path)
def link_to_a_device(path): os.symlink("/dev/null", path)
def link_to_a_store(path):
    put("elsewhere", live)
    os.symlink(os.path.abspath("elsewhere"), path)
def link_to_the_other(path): os.symlink("store_b" if path == A else "store_a", path)
def hard_link(path):
    put("elsewhere", live)
    os.link("elsewhere", path)
def same_file(path): os.link(B if path == A else A, path)
def device(path): os.mknod(path, stat.S_IFCHR | 0o666, os.makedev(1, 3))
kinds = [folder, pipe, link_to_nothing, link_to_a_device, link_to_a_store, link_to_the_other, hard_link, same_file]
for kind in kinds + ([device] if root else []):
    for path in A, B:
        name = f"{kind.__name__} as {os.path.basename(path)}"
        restore()
        os.remove(path)
        kind(path)
        was = os.lstat(path)
        # (of two names of one file the first is looked at first)
        check_fault(name, "vunit_out/store_a" if kind is same_file or path == A else "vunit_out/store_b", "open", A_FILE)
        now = os.lstat(path)
        if (was.st_mode, was.st_ino, was.st_nlink, was.st_size) != (now.st_mode, now.st_ino, now.st_nlink, now.st_size):
            fail(name, "it was changed")
        if os.path.exists("project/vunit_out/nothing"):
            fail(name, "what the link names was made")
        for other, data in zip((A, B), good):
            if other != path and kind is not same_file:
                with open(other, "rb") as file:
                    if file.read() != data:
                        fail(name, f"{other} was changed")
        if os.path.exists("elsewhere"):
            with open("elsewhere", "rb") as file:
                if file.read() != live:
                    fail(name, "the file elsewhere was changed")
            os.remove("elsewhere")
        shutil.rmtree(path) if kind is folder else os.remove(path)
        if kind is not same_file:
            put(path, good[path == B])
            check_build(name + ", and mended")

# The folder of the store.
restore()
shutil.rmtree(OUT)
put(OUT, b"")
check_fault("a file as the folder", "vunit_out/store_a", "open", "Not a directory (os error 20)")
os.remove(OUT)
os.symlink("nothing", OUT)
check_fault("a link to nothing as the folder", "vunit_out/store_a", "open", "No such file or directory (os error 2)")
os.remove(OUT)
os.mkdir("project/on_another_disk")
os.symlink("on_another_disk", OUT)
check_build("a link to a folder as the folder")

# Without leave to write.
before, may = [], root
if root:
    before = NOBODY
    may = shutil.which("setpriv") and subprocess.run([*NOBODY, "test", "-x", PROGRAM, "-a", "-r", "."]).returncode == 0
WHERE = {"a folder without a store": ("vunit_out", "make"), "a folder that may not be written": ("vunit_out/store_b", "open"),
         "a side that may not be written": ("vunit_out/store_b", "open")}
if may or not root:
    for name, mode, paths in [("a folder without a store", 0o555, ["project"]), ("a folder that may not be written", 0o555, [OUT]),
                              ("a folder that may not be looked at", 0o000, [OUT]), ("a store that may not be written", 0o444, [A, B]),
                              ("a side that may not be written", 0o444, [B]), ("a store that may not be read", 0o222, [A, B])]:
        restore()
        if paths == ["project"]:
            shutil.rmtree(OUT)
        if root:
            for path in "project", OUT, A, B:
                if os.path.exists(path):
                    os.chown(path, 65534, 65534)
        if paths == [OUT] and mode == 0o555:
            os.remove(B)
        modes = [os.stat(path).st_mode for path in paths]
        for path in paths:
            os.chmod(path, mode)
        check_fault(name, *WHERE.get(name, ("vunit_out/store_a", "open")), DENIED, before)
        for path, old in zip(paths, modes):
            os.chmod(path, old)
        check_build(name + ", and mended")
else:
    print("not tried: sides without leave, since nobody may not run the program")

# Another process has the lock.
restore()
with open(A, "rb") as file:
    fcntl.flock(file, fcntl.LOCK_EX)
    check_fault("a locked store", "vunit_out/store_a", "lock", "another run has locked it")
    if read_sides("project") != good:
        fail("a locked store", "it was changed")
check_build("a store that is free again")

# Bytes of every kind. The other reader says which records they stand for.
given, gate = payloads(live)
def side(payloads, generation=1, form=FORM, first=1, end=b"\0"):
    body = b"".join(b"\1" + struct.pack("<I", len(payload)) + payload for payload in payloads)
    return bytes([first]) + b"VUNITREC" + bytes([form]) + struct.pack("<Q", generation) + body + end
def number(at): return b"\0" + struct.pack("<Q", at)
def new(text): return b"\1" + spelled(text)
def product(path, text): return b"\0" + spelled(b"lib") + spelled(path) + text
def record(path, text, below, artefact, command=COMPILER):
    words = b"".join(spelled(word.encode()) for word in command)
    numbers = struct.pack("<I%dQ" % len(below), len(below), *below)
    return b"\1" + spelled(b"lib") + spelled(path) + struct.pack("<I", len(command)) + words + text + numbers + artefact
# (each file has a text and then an artefact, in the order p, u1, u2, v)
if given[1] != record(b"u1.vhd", new(FILES["u1.vhd"].encode()), [0], new(Requests(given).texts[3])) or len(given) != 4:
    fail("the payloads", f"they are {given}")
last = 2**64 - 1
chance = random.Random(15)
contents = [
    ("no bytes", b"", b""), ("19 bytes whose first is 2", side([], first=2), b""), ("one side is full and its first byte is 2", side(given, first=2), b""),
    ("a thousand bytes of value 1", b"\1" * 1000, b"\1" * 1000), ("another form", side(given, form=1), b""), ("a form that comes later", side(given, form=FORM + 1), b""),
    ("payloads that are none of the older form", side(given, form=OLD_FORM), b""),
    ("another mark", live.replace(b"VUNITREC", b"VUNITREX", 1), b""), ("18 bytes", live[:18], b""),
    ("both sides", side(given), side(given[:1])), ("the second is newer", side(given), side(given[:1], 2)),
    ("the first is newer", side(given[:1], 2), side(given)), ("the last generation", side(given[:2], last), side(given)),
    ("the last generation on the second side", side(given), side(given[:2], last)),
    ("an open gate at the end", side(given, end=b"\1"), b""), ("an open gate and a length", side(given[:2], end=b"\1\xff\xff\xff\xff"), b""),
    ("an open gate and half a payload", side(given[:2], end=b"\1" + struct.pack("<I", len(given[2])) + given[2][:9]), b""),
    ("an open gate and a payload without a gate", side(given[:2], end=b"\1" + struct.pack("<I", len(given[2])) + given[2]), b""),
    ("a closed gate and a payload", side(given[:2], end=b"\0" + struct.pack("<I", len(given[2])) + given[2] + b"\0"), b""),
    ("another gate and a payload", side(given[:2], end=b"\2" + struct.pack("<I", len(given[2])) + given[2] + b"\0"), b""),
    ("each payload twice", side([one for one in given for _ in range(2)]), b""), ("the payloads from the last on", side(given[::-1]), b""),
    ("without the first", side(given[1:]), b""), ("empty payloads", side([b""] * 3 + given + [b""] * 3), b""),
    ("payloads of nothing known", side([b"\3", b"\0" * 9, b"\1", b"\2", *given]), b""),
    ("another artefact of p", side([*given, record(b"p.vhd", number(0), [], new(b"no"))]), b""),
    ("another artefact of p, and then the one it had", side([*given, record(b"p.vhd", number(0), [], new(b"no")), record(b"p.vhd", number(0), [], number(1))]), b""),
    ("another artefact of u1", side([*given, record(b"u1.vhd", number(2), [0], new(b"no"))]), b""),
    ("another command of p", side([*given, record(b"p.vhd", number(0), [], number(1), [*COMPILER, "-x"])]), b""),
    ("another text of p", side([*given, record(b"p.vhd", new(b"no"), [], number(1))]), b""),
    ("u1 over nothing", side([*given, record(b"u1.vhd", number(2), [], number(3))]), b""),
    ("u1 over v", side([*given, record(b"u1.vhd", number(2), [3], number(3))]), b""),
    ("u1 over another p", side([*given, product(b"p.vhd", new(b"no")), record(b"u1.vhd", number(2), [4], number(3))]), b""),
    ("u1 over no product", side([*given, record(b"u1.vhd", number(2), [9], number(3))]), b""),
    ("the text of u1 of no number", side([*given, record(b"u1.vhd", number(99), [0], number(3))]), b""),
    ("only products", side([product(path.encode(), new(b"made of " + path.encode())) for path in sorted(FILES)]), b""),
    ("products that nothing is over", side([product(b"p.vhd", new(b"no")), *given]), b""),
    ("products after the records", side([*given, product(b"p.vhd", new(b"no")), product(b"w.vhd", number(1))]), b""),
    ("counts beyond the bytes", side([*given[:2], given[2][:21] + b"\xff\xff\xff\xff" + given[2][25:]]), b""),
    ("a gigabyte of length", side(given[:1], end=b"\1\0\0\0\x40"), b""),
]
for _ in range(12):
    contents.append(("cut off", live[:chance.randrange(len(live))], b""))
for _ in range(30):
    one = bytearray(live)
    for _ in range(chance.choice([1, 1, 2])):
        one[chance.randrange(len(one))] = chance.choice([0, 1, 2, 255, chance.randrange(256)])
    contents.append((f"other bytes than {live.hex()}: {one.hex()}", bytes(one), b""))
for name, a, b in contents:
    restore()
    put(A, a)
    put(B, b)
    check_build(name)

# A build is stopped once the record of p was made and before that of u1, and p is edited back: then p alone lacks a record.
restore()
write("project", {"p.vhd": FILES["p.vhd"] + "-- child: note 1\n"})
stopped = subprocess.Popen([PROGRAM, "--compile"], cwd="project", env=environment("requests", 0.3), stdin=subprocess.DEVNULL,
                           stdout=subprocess.DEVNULL, stderr=subprocess.DEVNULL)
until = time.monotonic() + 20
while (b"lib", b"u1.vhd") not in started_in("requests") and time.monotonic() < until:
    time.sleep(0.01)
stopped.kill()
stopped.wait()
write("project", {"p.vhd": FILES["p.vhd"]})
expect("p is edited back after a stop", "project", 0, build_text([(b"lib", b"p.vhd")]), "--compile", env=environment("requests"))

# A side of more bytes than there is memory for, most of which take no room on the disk: it is read up to its closed gate alone.
LITTLE = ["sh", "-c", 'ulimit -v 262144; exec "$@"', "sh"]
restore()
put(A, side(given))
os.truncate(A, 2**40)
expect("a side of a tebibyte", "project", 0, "Re-compile not needed\n", "--compile", env=environment("requests"), before=LITTLE)
# A payload of more bytes than there is memory for: `--clean` doesn't read it.
restore()
put(A, side(given, end=b"\1\0\0\0\x40"))
os.truncate(A, 2**40)
expect("a payload of a gibibyte", "project", 4, "", "--compile", error="vunit_run: out of memory\n", env=environment("requests"), before=LITTLE)
expect("a side of a tebibyte that is emptied", "project", 0, build_text([(b"lib", path.encode()) for path in sorted(FILES) if path != "vunit.toml"]), "--compile", "--clean", env=environment("requests"))
expect("and once more", "project", 0, build_text([]), "--compile", env=environment("requests"))


def fill(path):
    """Makes a file longer until the disk is full."""
    with open(path, "ab", buffering=0) as file:
        try:
            while True:
                file.write(b"x" * 4096)
        except OSError:
            pass


# A full disk, at the opening and inside a build.
os.makedirs("small/project")
long = {f"f{at}.vhd": package(f"f{at}") + f"-- {at:08}\n" * 1700 for at in range(6)}
if root and subprocess.run(["mount", "-t", "tmpfs", "-o", "size=256k", "none", "small"], capture_output=True).returncode == 0:
    try:
        os.mkdir("small/project")
        shutil.rmtree("project")
        os.symlink("small/project", "project")
        write("project", long | {"vunit.toml": FILES["vunit.toml"]})
        fill("small/filler")
        check_fault("a disk that is full before", "vunit_out/store_a", "write", FULL)
        os.truncate("small/filler", os.stat("small/filler").st_size - 60000)
        full = fault("vunit_out/store_a", "write", FULL)
        expect("a disk that fills", "project", 3, "", "--compile", error=full, env=environment("requests"))
        kept = [record.asked.path for record in records_of("project")]
        started = [path for _, path in started_in("requests")]
        if not 1 <= len(kept) < 6 or started != [*kept, b"f%d.vhd" % len(kept)]:
            fail("a disk that fills", f"it kept {kept} and started {started}")
        expect("a disk that is still full", "project", 3, "", "--compile", error=full, env=environment("requests"))
        if [record.asked.path for record in records_of("project")][:len(kept)] != kept:
            fail("a disk that is still full", "a record is lost")
        # The store gives its room back before anything is written, so `--clean` builds as much again on a full disk.
        for at in range(len(kept), 6):
            os.remove(f"small/project/f{at}.vhd")
        fill("small/filler")
        again = build_text([(b"lib", path) for path in kept])
        expect("a full disk that is emptied", "project", 0, again, "--compile", "--clean", env=environment("requests"))
        os.remove("small/filler")
        check_build("a disk that is full no more")
    finally:
        subprocess.run(["umount", "-l", "small"])
else:
    print("not tried: a full disk, since none could be mounted")
end()
END
