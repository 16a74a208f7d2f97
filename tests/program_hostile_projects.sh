#!/bin/sh
# Project files and folders that are as large, as deep or as tangled as may be are read or refused in bounded time and memory.
. "$TOP/tests/support/needs.sh"
needs python3
PYTHONPATH=$TOP/tests/support exec python3 -B - <<'END'
import itertools, os, string

from growth import FOR_A_BYTE, checked, grows, in_step, measured
from trial import end, expect, fail, project, run, toml, write

SECONDS = 30
LONG = 4194304
NOT_TOML = "vunit_run: vunit.toml isn't TOML\n"
LISTED = "lib, a.vhd\nListed 1 files\n"
NO_TESTS = "Listed 0 tests\n"
LIBRARY = toml({"lib": ["a.vhd"]})
ONE_LINE = 'library = [{ name = "lib", files = ["a.vhd"] }]'


def check(name, status, text, project_file):
    write("project", {"vunit.toml": project_file})
    expect(name, "project", status, text, "-f", seconds=SECONDS)


def is_answered(name, project_file):
    """It is read, or refused, or too much for the memory; but the program isn't ended by a signal."""
    write("project", {"vunit.toml": project_file})
    ran = run("project", "-f", seconds=SECONDS)
    if ran not in [(0, LISTED.encode(), b""), (1, NOT_TOML.encode(), b""), (4, b"", b"vunit_run: out of memory\n")]:
        fail(name, f"it is {ran}")


project("project", {"a.vhd": ""})
check("brackets alone", 1, NOT_TOML, "[" * LONG)
check("an array that isn't closed", 1, NOT_TOML, "a = " + "[" * (LONG - 4))
check("tables that aren't closed", 1, NOT_TOML, "a = " + "{a=" * (LONG // 3 - 2))
check("one word", 1, NOT_TOML, "a" * LONG)
for depth in 1000, LONG // 2 - 100:
    is_answered(f"an array of depth {depth}", "a = " + "[" * depth + "]" * depth + "\n" + LIBRARY)
    is_answered(f"a key of {depth} parts", "a." * depth + "a = 1\n" + LIBRARY)
is_answered("tables in tables", "a = " + "{a=" * 800000 + "1" + "}" * 800000 + "\n" + LIBRARY)
check("a comment as long as may be", 0, LISTED, ONE_LINE + " #" + "x" * (LONG - len(ONE_LINE) - 2))
check("a string as long as may be", 0, LISTED, ONE_LINE + '\na = "' + "x" * (LONG - len(ONE_LINE) - 7) + '"')
check("many external libraries", 0, LISTED, "external = " + str([f"l{at}" for at in range(30000)]).replace("'", '"') + "\n" + LIBRARY)

# Arrays, inline tables and keys as deep as may be, and deeper; more of them takes no more time.
for name, text_of in (("arrays", lambda depth: "a = " + "[" * depth + "]" * depth),
                      ("inline tables", lambda depth: "a = " + "{a=" * depth + "1" + "}" * depth),
                      ("parts of a key", lambda depth: "a." * (depth - 1) + "a = 1"),
                      ("parts of a table's name", lambda depth: "[" + "a." * (depth - 1) + "a]")):
    check(f"80 {name}", 0, LISTED, text_of(80) + "\n" + LIBRARY)
    check(f"81 {name}", 1, NOT_TOML, text_of(81) + "\n" + LIBRARY)
    each = len(text_of(3)) - len(text_of(2))
    deep = lambda size: text_of((size - len(LIBRARY) - 8) // each) + "\n" + LIBRARY
    grows(name, lambda size: ({"a.vhd": "", "vunit.toml": deep(size)}, 1, NOT_TOML, ""), (LONG // 4, LONG), "-f")


# As many keys as there is room for: in a table, in tables of their own, and in an inline table.
def keys_in(size, beginning, form, ending=""):
    room = (size - len(beginning + ending + LIBRARY)) // len(form % 0)
    return {"a.vhd": "", "vunit.toml": beginning + "".join(form % at for at in range(room)) + ending + LIBRARY}, 0, LISTED, ""


for name, parts in (("keys", ["", "%06x=1\n"]), ("tables", ["", "[%06x]\n"]), ("keys of an inline table", ["a={", "%06x=1,", "b=1}\n"]),
                    ("keys of two parts", ["", "a.%06x=1\n"]), ("tables of one name", ["", "[[a]]#%06x\n"])):
    grows(name, lambda size: keys_in(size, *parts), (LONG // 4, LONG), "-f")
project("project", {"a.vhd": ""})

# Stars: 1,024 in one pattern, with letters between them, and as parts.
names = {f"{'a' * 200}{at}.vhd": "" for at in range(50)}
deep = "d/" * 200 + "x.vhd"
project("project", names | {deep: "", "a.vhd": ""})
listing = "".join(f"lib, {name}\n" for name in sorted([*names, "a.vhd"])) + "Listed 51 files\n"
check("1,024 stars", 0, f"lib, {deep}\nListed 1 files\n", toml({"lib": ["d/" * 200 + "*" * 1024]}))
check("1,024 stars and an end", 0, listing, toml({"lib": ["*" * 1024 + ".vhd"]}))
tangled = "a*" * 512 + "b"
check("512 letters and stars", 1, f"vunit_run: nothing matches {tangled}\n", toml({"lib": [tangled]}))
tangled = "*a" * 200 + "*b"
check("200 stars and letters", 1, f"vunit_run: nothing matches {tangled}\n", toml({"lib": [tangled]}))
tangled = "**/" * 339 + "y.vhd"
check("339 parts that stand for any number", 1, f"vunit_run: nothing matches {tangled}\n", toml({"lib": [tangled]}))
tangled = "**/d/" * 100 + "x.vhd"
check("a deep path", 0, f"lib, {deep}\nListed 1 files\n", toml({"lib": [tangled]}))
tangled = "**/d/" * 201 + "x.vhd"
check("a path that isn't deep enough", 1, f"vunit_run: nothing matches {tangled}\n", toml({"lib": [tangled]}))
check("a thousand patterns", 0, listing, toml({"lib": ["*.vhd"] * 1000}))

# Libraries that together exceed the greatest number of files: a fault of the last of them comes first.
project("project", {f"{at}.vhd": "" for at in range(2000)})
MANY = "vunit_run: over limit: files 4096\n"
for count in 3000, 6000:
    libraries = "".join(f'[[library]]\nname="l{at}"\nfiles=["*"]\n' for at in range(count))
    check(f"{count} libraries of 2,000 names", 5, MANY, libraries)
    check(f"{count} libraries, and one twice", 1, "vunit_run: library l0 stands twice\n", libraries + '[[library]]\nname="l0"\nfiles=["*"]\n')

# As many names as are listed, and one more; names that begin with a dot don't count, nor does what the program made. The time
# of stars grows with the number of names, compared with another project.
COUNTS = {"fewer": 16384, "project": 65536}
for folder, count in COUNTS.items():
    project(folder, {"a.vhd": "", "vunit.toml": "", ".hidden": "", "vunit_out/x": ""})
    os.mkdir(f"{folder}/src")
    for at in range(count - 2):
        os.close(os.open(f"{folder}/src/{at:05}", os.O_CREAT | os.O_WRONLY))
tangled = "**/" * 100 + "*1" * 300
for name, pattern, wanted in (("names", "a.vhd", (0, LISTED, "")), ("1,024 stars over so many names", "*" * 1024 + ".vhd", (0, LISTED, "")),
                              ("stars over so many names", tangled, (1, f"vunit_run: nothing matches {tangled}\n", ""))):
    for folder in COUNTS:
        write(folder, {"vunit.toml": toml({"lib": [pattern]})})
    in_step(name, *(lambda folder=folder, count=count: checked(f"{name}: {count}", wanted, count * len("src/00000"), "-f", folder=folder)
                    for folder, count in COUNTS.items()))
write("project", {"vunit.toml": LIBRARY})
write("project", {"b.vhd": ""})
expect("65,537 names", "project", 5, "vunit_run: over limit: names 65536\n", "-f", seconds=SECONDS)
check("65,537 names come before what is wrong with the file", 5, "vunit_run: over limit: names 65536\n", "[[library")
os.remove("project/vunit.toml")
write("project", {"vunit.csv": "lib,a.vhd\n"})
for at in range(10):
    write("project", {f"c{at}.vhd": ""})
expect("so many names don't matter to a vunit.csv", "project", 0, LISTED, "-f", seconds=SECONDS)

# Links, pipes and folders among the names.
project("project", {"a.vhd": "", "vunit.toml": toml({"lib": ["*.vhd"]})})
os.symlink("/dev/null", "project/b.vhd")
os.symlink(".", "project/c.vhd")
os.mkfifo("project/d.vhd")
os.mkdir("project/e.vhd")
expect("a link to a device, one to a folder, a pipe and a folder aren't listed", "project", 0, LISTED, "-f", seconds=SECONDS)
os.symlink("a.vhd", "project/f.vhd")
expect("a link to a file is listed", "project", 0, "lib, a.vhd\nlib, f.vhd\nListed 2 files\n", "-f", seconds=SECONDS)
# Names that were chosen to meet in the kit's hasher: they are looked up in n log n of time nevertheless.


def four_letters():
    return ("".join(letters) for letters in itertools.product(string.ascii_lowercase, repeat=4))


def names_that_meet(size):
    """Packages with names of 19 bytes. The 8 at the end of 12 are the hasher's multiplier, whatever comes before them."""
    meeting = (0x9E3779B97F4A7C15).to_bytes(8, "little") + b"z" * 7
    units = (b"package \\" + letters.encode() + meeting + b"\\ is end;" for letters in four_letters())
    return b"".join(itertools.islice(units, size // 37))


project("project", {"vunit.toml": LIBRARY, "a.vhd": names_that_meet(LONG)})
ran, seconds = measured(["-f"], FOR_A_BYTE * LONG)
if ran != (0, LISTED.encode(), b"") or seconds > 5:
    fail("names of units that meet", f"4 MB take {seconds:.2f} seconds: {ran}")


def with_long_name(name, count):
    """A bench of this name with so many cases."""
    calls = "".join(f'run("{at:05}");' for at in range(count))
    return f"entity {name} is generic (runner_cfg : string); end;architecture a of {name} is begin {calls}end;"


# A bench whose name is as long as all of its calls: no full name is made to be compared.
for shape, name_of in ("a long name", lambda size: "a" * size), ("a long extended name", lambda size: "\\" + "a." * (size // 2) + "\\"):
    grows(shape, lambda size: ({"a.vhd": with_long_name(name_of(size // 2), size // 24), "vunit.toml": LIBRARY}, 0, NO_TESTS, ""), (150_000, 600_000), "-l", "q")
long_name = "a" * 20_000
lines = "".join(f"lib.{long_name}.{at:05}\n" for at in range(1000))
text, said = with_long_name(long_name, 1000), lines + "Listed 1000 tests\n"
project("project", {"a.vhd": text, "vunit.toml": LIBRARY})
checked("all names of a bench with a long one", (0, said, ""), len(text) + len(said), "-l")
end()
END
