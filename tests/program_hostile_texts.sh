#!/bin/sh
# Sources of the greatest length, depth or number. The answer for each is known beforehand, and comes in time that grows as the
# text does, and in at most 100 bytes of memory for each of its bytes.
. "$TOP/tests/support/needs.sh"
needs python3
PYTHONPATH=$TOP/tests/support exec python3 -B - <<'END'
from growth import grows
from trial import build_text, end, expect, project, toml

LONG = 4194304
LIBRARY = toml({"lib": ["*.vhd"]})


def listed(*files):
    return "".join(f"lib, {path}\n" for path in files) + f"Listed {len(files)} files\n"


def accepted(text):
    """A file that is listed."""
    return {"vunit.toml": LIBRARY, "a.vhd": text}, 0, listed("a.vhd"), ""


def refused(text, said, at):
    """A file of one line in which something is wrong at this byte."""
    said = f"lib, a.vhd: {said} at {at}\n"
    return {"vunit.toml": LIBRARY, "a.vhd": text}, 1, "vunit_run: " + said, f"a.vhd:1:{at + 1}: {said}"


# Two quotes within a string are one of its bytes. So an even number of quotes are one whole string, which begins no unit; of an
# odd number the last one opens a string.
grows("an even number of quotes", lambda size: refused('"' * size, "no design unit", 0), (LONG // 4, LONG), "-f")
grows("an odd number of quotes", lambda size: refused('"' * size, "unclosed string", size - 1), (LONG // 4 - 1, LONG - 1), "-f")


def nested(depth, ends):
    return "entity e is end; architecture a of e is begin " + "g: if true generate " * depth + "end generate; " * ends + "end;"


grows("nested generates", lambda size: accepted(nested(size, size)), (25000, 100000), "-f")
grows("nested generates, of which one has no end", lambda size: refused(nested(size, size - 1), "design unit not ended", 17), (25000, 100000), "-f")

# A byte of value 0 is not a blank, and begins no unit; within a unit it is passed over.
grows("bytes of value 0", lambda size: refused("\0" * size, "no design unit", 0), (LONG // 4, LONG), "-f")


def filled(size, with_text):
    """A package in one line, of at most so many bytes, that is filled with a text."""
    begin, finish = "package p is ", " end;"
    return begin + with_text * ((size - len(begin + finish)) // len(with_text)) + finish


grows("bytes of value 0 within a unit", lambda size: accepted(filled(size, "\0")), (LONG // 4, LONG), "-f")
project("project", accepted(filled(LONG, "\0"))[0])
expect("a unit of bytes of value 0", "project", 0, build_text([(b"lib", b"a.vhd")]), "--compile")
expect("a unit of bytes of value 0, once more", "project", 0, build_text([]), "--compile")

# One line.
line = lambda size: filled(size - 4, 'constant c : string := "a";')
grows("one line of declarations", lambda size: accepted(line(size)), (LONG // 4, LONG), "-f")
grows("one line with a word behind its unit", lambda size: refused(line(size) + " foo", "no design unit", len(line(size)) + 1), (LONG // 4, LONG), "-f")
grows("one word", lambda size: refused("a" * size, "no design unit", 0), (LONG // 4, LONG), "-f")
grows("one comment", lambda size: accepted("--" + "x" * (size - 2)), (LONG // 4, LONG), "-f")


def many_units(size, last):
    """So many packages over six files, of which the last has this name."""
    names = [f"u{at:06}" for at in range(size - 1)] + [last]
    each = -(-size // 6)
    texts = ["".join(f"package {name} is end;" for name in names[at:at + each]) for at in range(0, size, each)]
    return {f"{at}.vhd": text for at, text in enumerate(texts)} | {"vunit.toml": LIBRARY}


files = [f"{at}.vhd" for at in range(6)]
grows("units", lambda size: (many_units(size, "v"), 0, listed(*files), ""), (250000, 1000000), "-f")
twice = "vunit_run: lib.u000000 stands in lib, 0.vhd and lib, 5.vhd\n"
grows("units, of which the last has the name of the first", lambda size: (many_units(size, "U000000"), 1, twice, ""), (250000, 1000000), "-f")

# References to one name, in a use clause and in an expression.
def referring(text, status=0, out="l, a.vhd\nl, b.vhd\nListed 2 files\n"):
    return {"vunit.toml": toml({"l": ["b.vhd", "a.vhd"]}), "a.vhd": "package p is end;", "b.vhd": text}, status, out, ""


def used(size, name):
    return "library l;use " + f"l.{name}," * (size - 1) + f"l.{name};package q is end;"


grows("uses of one name", lambda size: referring(used(size, "p")), (175000, 700000), "-f")
grows("uses of one name that isn't there", lambda size: referring(used(size, "n"), 1, "vunit_run: l, b.vhd: no unit l.n\n"), (175000, 700000), "-f")
grows("mentions of one name", lambda size: referring("library l;package q is constant c:t:=" + "l.p+" * size + "1;end;"), (175000, 700000), "-f")


def benches(count, is_listed=True):
    """So many benches, whose entities are in one file and their architectures in another, and the list of their tests or an empty one."""
    names = [f"t{at:05}" for at in range(count)]
    texts = {"vunit.toml": LIBRARY, "b.vhd": "".join(f"entity {name} is generic(runner_cfg:string);end;" for name in names),
             "a.vhd": "".join(f"architecture a of {name} is begin end;" for name in reversed(names))}
    selected = names if is_listed else []
    return texts, 0, "".join(f"lib.{name}.all\n" for name in selected) + f"Listed {len(selected)} tests\n", ""


grows("benches over two files", benches, (16384, 65536), "-l")
grows("1,024 stars over their names", benches, (16384, 65536), "-l", "*" * 1024)
grows("stars and digits over their names", lambda count: benches(count, False), (16384, 65536), "-l", "*1" * 500)
project("project", benches(65537)[0])
expect("a bench more", "project", 5, "vunit_run: over limit: tests 65536\n", "-l")
end()
END
