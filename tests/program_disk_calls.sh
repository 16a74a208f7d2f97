#!/bin/sh
# The calls of the system for the program's store, one by one: a first build, a run with nothing to do, one record more, a store
# that is emptied, one that is compacted as it is opened, and one of the older form. The content of a file is on the device
# (`sync`, `datasync`) before the next write says it. Both files are synced and their kept pages dropped (`advise`) before
# anything is read. A new file is in its folder, and that in the one around it, before the first write.
. "$TOP/tests/support/needs.sh"
needs python3 strace
PYTHONPATH=$TOP/tests/support exec python3 -B - <<'END'
import os, re, shutil

from store_reader import Carried, FORM, migrated_of, read_sides, side_of, views_in
from trial import end, fail, package, project, run, write

CALLS = "?mkdir,mkdirat,?open,openat,close,flock,fsync,fdatasync,fadvise64,ftruncate,?read,pread64,?write,pwrite64,?rename,?renameat,?renameat2,?unlink,unlinkat,mmap"
HERE = os.path.realpath("project")
PATHS = [".", "vunit_out", "vunit_out/store_a", "vunit_out/store_b"]
NAMES = {HERE: ".", HERE + "/vunit_out": "vunit_out", HERE + "/vunit_out/store_a": "a", HERE + "/vunit_out/store_b": "b"}
WORDS = {"flock": "lock", "fsync": "sync", "fdatasync": "datasync", "fadvise64": "advise", "close": "close"}


def said(line):
    """A call in the words of the lists below, or nothing for a signal."""
    found = re.match(r"(\w+)\((.*)\) += (\S+)", line)
    if not found:
        return None
    call, words, result = found.groups()
    there = " (there)" if result == "-1" and "EEXIST" in line else "" if not result.startswith("-") else " (failed)"
    if call in ("mkdir", "mkdirat"):
        return "make " + re.search(r'"([^"]*)"', words)[1] + there
    if call in ("open", "openat"):
        path = re.search(r'"([^"]*)"', words)[1]
        return ("create " if "O_CREAT" in words else "open ") + {"vunit_out/store_a": "a", "vunit_out/store_b": "b"}.get(path, path) + there
    name = NAMES[re.match(r"\d+<([^>]*)>", words)[1]]
    numbers = words.split(", ")
    if call == "ftruncate":
        return f"cut {name} to {numbers[-1]}"
    if call in ("pread64", "pwrite64"):
        return f"{'read' if call == 'pread64' else 'write'} {name} {numbers[-2]} at {numbers[-1]}"
    return f"{WORDS.get(call, call)} {name}"


def calls_of(*words):
    before = ["strace", "--quiet=all", "-y", "-s", "0", "-o", "../calls", "-e", "trace=" + CALLS]
    for path in PATHS:
        before += ["-P", path, "-P", os.path.join(HERE, path)]
    status, text, error = run("project", "--compile", *words, before=before)
    if (status, error) != (0, b""):
        fail(f"{words}", f"{status, text, error}")
    with open("calls") as file:
        found = [call for line in file if (call := said(line))]
    # (the second look at the project lists its folder once more)
    while found[-3:-2] in (["open ."], ["close ."]):
        del found[-3]
    return without_look(found), text


def without_look(found):
    """The calls but for those of the look for records that can't be read: at the first read both files are opened once more, and are read."""
    for at in range(len(found) - 1):
        if found[at:at + 2] == ["open a", "open b"]:
            end = min(found.index(close, at) for close in CLOSED)
            if sorted(found[end:end + 2]) != CLOSED or not found[at - 1].startswith("read ") \
                    or not all(re.fullmatch(r"read [ab] \d+ at \d+", call) for call in found[at + 2:end]):
                fail("the look at both files", f"it is {found[at - 1:end + 2]}")
            return found[:at] + found[end + 2:]
    return found


def check(name, wanted, *words, text):
    found, printed = calls_of(*words)
    if printed.decode() != text:
        fail(name, f"it printed {printed}")
    if found != wanted:
        at = next((at for at, pair in enumerate(zip(found, wanted)) if pair[0] != pair[1]), min(len(found), len(wanted)))
        fail(name, f"call {at} of {len(found)} is {found[at:at + 6]}\nand not {wanted[at:at + 6]} of {len(wanted)}")


def size(side):
    return os.path.getsize(f"project/vunit_out/store_{side}")


SYNCED = ["sync a", "advise a", "sync b", "advise b"]
OPENED = ["make vunit_out (there)", "create a (there)", "open a", "lock a", "create b (there)", "open b", "lock b", *SYNCED]
CLOSED = ["close a", "close b"]
WINDOW = 131_072  # the most bytes that are read at once, but for a longer payload
HEAD = 19  # the first byte, the mark with its form, the generation, and the gate of the first payload
# What a record has less whose artefact, `unit package a` and a line feed, is there already: its number, and not its length and it.
LESS = 4 + 15 - 8


def new_side(side, length=HEAD):
    """A side, empty where no length is given: what it held is cut off, it is shut, what it is to hold is written, and then it is opened."""
    return [f"cut {side} to 0", f"sync {side}", f"write {side} 1 at 0", f"datasync {side}",
            f"write {side} {length - 1} at 1", f"datasync {side}", f"write {side} 1 at 0", f"datasync {side}"]


def added(side, before, after):
    """A payload behind the last, and then the gate before it."""
    return [f"write {side} {after - before} at {before}", f"datasync {side}", f"write {side} 1 at {before - 1}", f"datasync {side}"]


def payloads_read(side):
    """How the payloads of a side are read that has only whole ones: from the first gate on a window at a time, but for a payload that is longer than one."""
    with open(f"project/vunit_out/store_{side}", "rb") as file:
        held = file.read()
    found, window = [], range(0)

    def look(at, count):
        nonlocal window
        if not (at in window and at + count <= window.stop):
            window = range(at, min(at + WINDOW, len(held)))
            found.append(f"read {side} {len(window)} at {at}")

    gate = HEAD - 1
    while gate + 1 < len(held):
        look(gate, 5)
        count = int.from_bytes(held[gate + 1:gate + 5], "little")
        if count > WINDOW:
            found.append(f"read {side} {count} at {gate + 5}")
        else:
            look(gate + 5, count)
        gate += 5 + count
    look(gate, 1)
    return found


BUILT = "Compiling into lib: a.vhd passed\nCompile passed\n"
TEXT = package("a")
project("project", {"vunit.csv": "lib,a.vhd\n", "a.vhd": TEXT})
found, printed = calls_of()
first = size("a")
wanted = ["make vunit_out", "create a", "lock a", "create b", "lock b", "open vunit_out", "sync vunit_out", "close vunit_out", "open .", "sync .", "close .",
          *SYNCED, *new_side("a"), *added("a", HEAD, first), *CLOSED]
if found != wanted or printed.decode() != BUILT or size("b") != 0:
    fail("a first build", f"{found}\nand not {wanted}")
check("nothing to do", [*OPENED, f"read a {HEAD} at 0", f"read a {first - HEAD + 1} at {HEAD - 1}", *CLOSED], text="Re-compile not needed\n")

write("project", {"a.vhd": TEXT + "-- more\n"})
found, printed = calls_of()
second = size("a")
if found != [*OPENED, f"read a {HEAD} at 0", f"read a {first - HEAD + 1} at {HEAD - 1}", *added("a", first, second), *CLOSED]:
    fail("one record more", f"{found}")

# (nothing of its records is read, and each side gives its room back before one is written)
check("a store that is emptied", [*OPENED, f"read a {HEAD} at 0", "cut b to 0", "sync b", "write a 1 at 0", "datasync a",
                                  *new_side("a"), *added("a", HEAD, HEAD + second - first + LESS), *CLOSED], "--clean", text=BUILT)
if size("a") != HEAD + second - first + LESS or size("b") != 0:
    fail("a store that is emptied", f"its sides have {size('a')} and {size('b')} bytes")

# A long text that was edited twice leaves two dead records of it, with over a mebibyte and more than the third. The next
# opening writes the other side anew, with the last record alone.
LENGTH = 700_000


def edit():
    """Edits the text, of which the store has no like, and keeps its length."""
    edit.count += 1
    write("project", {"vunit.csv": "lib,a.vhd\n", "a.vhd": TEXT + f"-- {edit.count:06}\n" * (LENGTH // 10)})


edit.count = 0
project("project", {})
edit()
calls_of()
record, more = size("a") - HEAD, size("a") - HEAD - LESS
old, both = ["read a 19 at 0"], ["read a 19 at 0", "read b 19 at 0"]
if not LENGTH < record < LENGTH + 1000:
    fail("a long record", f"it has {record} bytes")
for count in 1, 2:
    edit()
    there = HEAD + record + (count - 1) * more
    check(f"a long text that is edited, and {count} records before", [*OPENED, *old, *payloads_read("a"), *added("a", there, there + more), *CLOSED], text=BUILT)
check("a store that is compacted", [*OPENED, *old, *payloads_read("a"), *new_side("b", HEAD + record), *CLOSED], text="Re-compile not needed\n")
check("a store that was compacted", [*OPENED, *both, *payloads_read("b"), *CLOSED], text="Re-compile not needed\n")
for count in 1, 2:
    edit()
    calls_of()
edit()
check("a store that is compacted before one record more", [*OPENED, *both, *payloads_read("b"), *new_side("a", HEAD + record),
                                                          *added("a", HEAD + record, HEAD + record + more), *CLOSED], text=BUILT)

# A store of the older form, of which one side is live, and one of which both are. It is read once, what stands for its records is written
# beside it as a side is that is made anew, and it stays. Where the store is emptied, nothing of it is read. (The folder is listed
# before, for the files of the project.)
LISTED = ["open .", "close ."]
for store, live, other in ("whole", "a", "b"), ("compacted", "b", "a"):
    data = os.path.join(os.environ["TOP"], "tests", "data", "old_stores")
    both = ["read a 19 at 0", "read b 19 at 0"] if store == "compacted" else ["read a 19 at 0"]
    shutil.rmtree("project")
    shutil.copytree(os.path.join(data, "project"), "project")
    shutil.copytree(os.path.join(data, store), "project/vunit_out")
    made = len(side_of(FORM, 1, Carried(migrated_of(views_in(read_sides("project")))).payloads))
    check(f"a store of the older form, {store}", [*LISTED, *OPENED, *both, *payloads_read(live), *new_side(other, made), *CLOSED], "-m", "no.such.test",
          text="Re-compile not needed\n")
    check(f"a store that was of the older form, {store}", [*LISTED, *OPENED, "read a 19 at 0", "read b 19 at 0", *payloads_read(other), *CLOSED], "-m", "no.such.test",
          text="Re-compile not needed\n")
    shutil.rmtree("project/vunit_out")
    shutil.copytree(os.path.join(data, store), "project/vunit_out")
    check(f"a store of the older form that is emptied, {store}", [*LISTED, *OPENED, *both, f"cut {other} to 0", f"sync {other}", f"write {live} 1 at 0", f"datasync {live}",
                                                                 *new_side(live), *CLOSED], "--clean", "-m", "no.such.test", text="Re-compile not needed\n")
end()
END
