#!/bin/sh
# The reader of the store agrees with the examples of docs/FORMATS.md, and with small stores that were written by hand: of form 2, and
# of which form counts. (request_reader.sh tries it on form 3.)
. "$TOP/tests/support/needs.sh"
needs python3 tomllib
PYTHONPATH=$TOP/tests/support exec python3 -B - "$TOP/docs/FORMATS.md" <<'END'
import os, re, struct, sys

from store_reader import (Asked, Carried, Entry, Product, RequestRecord, Views, ViewRecord, asked_at, built_over, counting_side, graph_of,
                          migrated_of, payloads, payloads_of_views, read_request, records_in, records_of, request_of, side_of)

with open(sys.argv[1]) as file:
    page = re.sub(r"\s+", " ", file.read())


def spelled(beginning):
    """The bytes of the one example on the page that begins so."""
    found = {hexes for hexes in re.findall(r"`([0-9a-f ]+)`", page) if hexes.startswith(beginning)}
    if len(found) != 1:
        sys.exit(f"the page has {len(found)} examples that begin with {beginning}")
    return bytes.fromhex(found.pop())


def check(name, found, wanted):
    if found != wanted:
        sys.exit(f"{name}: it is\n{found}\nand not\n{wanted}")


def side(given, form=2, generation=1, end=b"\0"):
    body = b"".join(b"\1" + struct.pack("<I", len(payload)) + payload for payload in given)
    return b"\1VUNITREC" + bytes([form]) + struct.pack("<Q", generation) + body + end


# The side without payloads, and the payload that is committed to it.
empty = spelled("01 56554e4954524543 01")
check("an empty side", empty, side([], form=1))
committed = bytearray(empty + bytes.fromhex("020000006162") + b"\0")
check("the gate is closed", payloads(committed), ([], 18))
committed[18] = 1
check("the gate is open", payloads(committed), ([b"ab"], 25))
committed[18] = 37
check("another gate", payloads(committed), ([], 18))
check("an open gate at the end", payloads(side([b"ab"], end=b"\1")), ([b"ab"], 25))
check("a payload without a gate after it", payloads(side([b"ab"], end=b"")), ([], 18))

# Which side counts.
one, two = side([b"x"]), side([b"y"], generation=2)
for name, sides, wanted in [
    ("the higher generation", [one, two], two),
    ("the higher generation as the first", [two, one], two),
    ("equal generations", [one, side([b"y"])], one),
    ("another form", [side([], form=1), b""], None),
    ("byte 0 is 2", [b"\2" + one[1:], b""], None),
    ("byte 0 is 2 and the other side is live", [b"\2" + two[1:], one], one),
    ("18 bytes", [one[:18], b""], None),
    ("a thousand bytes of value 1", [b"\1" * 1000] * 2, None),
]:
    check(name, counting_side(sides, 2), wanted)

# The examples of form 2, and invalid payloads of it.
first = spelled("01 03000000 6c6962 05000000 612e766864 01000000 02000000 6363 01 01000000 78 00000000 01000000")
second = spelled("01 03000000 6c6962 05000000 622e766864 01000000 02000000 6363 00 0000000000000000 01000000 0000000000000000 01000000")
a = Entry(b"lib", b"a.vhd", (b"cc",), b"x", ())
b = Entry(b"lib", b"b.vhd", (b"cc",), b"x", (0,))
records = [((a,), b"y"), ((a, b), b"z")]
check("the two examples", Views([first, second]).records, records)
check("its sizes", [len(side([first])), len(side([first, first]))], [66, 113])
again = b"\0" + struct.pack("<Q", 0) + b"\1\0\0\0v"
check("one more record of a node", Views([first, again]).records, [records[0], ((a,), b"v")])


def text(data):
    return struct.pack("<I", len(data)) + data


def node(path, source, needs=(), kind=1, artefact=text(b"y")):
    """A payload with a new node, whose source is a new text or the number of one."""
    spelled = b"\1" + text(source) if isinstance(source, bytes) else b"\0" + struct.pack("<Q", source)
    needs = struct.pack("<I%dQ" % len(needs), len(needs), *needs)
    return bytes([kind]) + text(b"lib") + text(path) + b"\1\0\0\0" + text(b"cc") + spelled + needs + artefact


check("the examples by hand", (node(b"a.vhd", b"x"), node(b"b.vhd", 0, [0], artefact=text(b"z"))), (first, second))
check("a node alone", Views([node(b"a.vhd", b"x", kind=2, artefact=b""), second]).records, [records[1]])
check("a third file", len(Views([first, second, node(b"c.vhd", 0, [0, 1])]).records), 3)
for name, payload in [
    ("nothing", b""),
    ("another first byte", node(b"c.vhd", b"w", kind=3)),
    ("a node that is there", node(b"a.vhd", 0)),
    ("a text that is there", node(b"c.vhd", b"x")),
    ("the number of no text", node(b"c.vhd", 1)),
    ("the number of no node", b"\0" + struct.pack("<Q", 2) + text(b"")),
    ("a byte more", node(b"c.vhd", b"w") + b"\0"),
    ("a byte less", node(b"c.vhd", b"w")[:-1]),
    ("a node alone with an artefact", node(b"c.vhd", b"w", kind=2)),
    ("a dependency that isn't there", node(b"c.vhd", b"w", [2])),
    ("a dependency twice", node(b"c.vhd", b"w", [0, 0])),
    ("a dependency of a dependency left out", node(b"c.vhd", b"w", [1])),
    ("dependencies in another order", node(b"c.vhd", b"w", [1, 0])),
    ("the name of a dependency", node(b"a.vhd", b"w", [0])),
    ("no library", b"\1" + text(b"") + node(b"c.vhd", b"w")[8:]),
    ("a path that is too long", node(b"c" * 1025, b"w")),
    ("an artefact that is too long", b"\0" + b"\0" * 8 + text(b"a" * 262145)),
    ("a count beyond the bytes", node(b"c.vhd", b"w", artefact=b"")[:-4] + b"\xff" * 4),
]:
    check(name, Views([first, second, payload, again]).records, [*records, ((a,), b"v")])
    check(name + ", and it adds nothing", Views([first, second, payload, node(b"d.vhd", b"w")]).texts, [b"x", b"w"])


# Which records of requests stand for records of views.
def view(*entries):
    """Files of `lib` as (path, text, positions of those before it)."""
    return tuple(Entry(b"lib", path, (b"cc",), text, deps) for path, text, deps in entries)


def asked(path, text, artefact, *below):
    return RequestRecord(Asked((b"cc",), b"lib", path, text, tuple(Product(b"lib", *one) for one in below)), artefact)


def moved(*records):
    return migrated_of([ViewRecord(*one) for one in records])


A, W, B = (b"a.vhd", b"x", ()), (b"a.vhd", b"w", ()), (b"b.vhd", b"y", (0,))
of_a, of_w = asked(b"a.vhd", b"x", b"1"), asked(b"a.vhd", b"w", b"3")
of_b = asked(b"b.vhd", b"y", b"2", (b"a.vhd", b"1"))
check("a file and one over it", moved((view(A), b"1"), (view(A, B), b"2")), [of_a, of_b])
check("in the other order", moved((view(A, B), b"2"), (view(A), b"1")), [of_a, of_b])
check("the first recorded once more with another text", moved((view(A), b"1"), (view(A, B), b"2"), (view(W), b"3")), [of_w])
check("and back", moved((view(A), b"1"), (view(A, B), b"2"), (view(W), b"3"), (view(A), b"4")),
      [asked(b"a.vhd", b"x", b"4"), asked(b"b.vhd", b"y", b"2", (b"a.vhd", b"4"))])
check("the second alone", moved((view(A, B), b"2")), [])
# c is over a and b, of which b is over a, and d over a alone. c comes last, since it is over two.
C, D = (b"c.vhd", b"z", (0, 1)), (b"d.vhd", b"", (0,))
of_c, of_d = asked(b"c.vhd", b"z", b"5", (b"a.vhd", b"1"), (b"b.vhd", b"2")), asked(b"d.vhd", b"", b"6", (b"a.vhd", b"1"))
check("four files", moved((view(A, B, C), b"5"), (view(A, D), b"6"), (view(A, B), b"2"), (view(A), b"1")), [of_a, of_b, of_d, of_c])
check("four files, of which b was recorded over another a", moved((view(A, B, C), b"5"), (view(A, D), b"6"), (view(A), b"1"), (view(W, B), b"2")),
      [of_a, of_d])
other = view(A)[0]._replace(command=(b"cc", b"-x"))
check("four files, of which a was recorded with another command", moved((view(A, B, C), b"5"), (view(A, B), b"2"), (view(A, D), b"6"), ((other,), b"1")),
      [RequestRecord(of_a.asked._replace(command=(b"cc", b"-x")), b"1")])
# In the view of c, b doesn't depend on a.
beside = (b"b.vhd", b"y", ())
check("two files beside each other", moved((view(A), b"1"), (view(beside), b"2"), (view(A, beside, C), b"5")), [of_a, asked(b"b.vhd", b"y", b"2"), of_c])
check("and one over the other", moved((view(A), b"1"), (view(A, B), b"2"), (view(A, beside, C), b"5")), [of_a, of_b])

# Payloads that are written for records.
written = [ViewRecord(*one) for one in [(view(A, B, C), b"5"), (view(A), b"1"), (view(A, B), b"2"), (view(W, B), b"2"), (view(A), b"4")]]
check("payloads for records", Views(payloads_of_views(written)).records, written)
check("their kinds", [payload[0] for payload in payloads_of_views(written)], [2, 2, 1, 0, 0, 2, 1, 0])
check("the examples once more", payloads_of_views([ViewRecord(*one) for one in records]), [first, second])

# Which records two sides have.
views, requests = side_of(2, 9, [first, second]), side_of(3, 1, Carried([of_w]).payloads)
taken = [asked(b"a.vhd", b"x", b"y"), asked(b"b.vhd", b"x", b"z", (b"a.vhd", b"y"))]
for name, sides, wanted in [
    ("records of views", [views, b""], taken), ("records of views on the second side", [b"", views], taken),
    ("records of requests", [requests, b""], [of_w]), ("both", [views, requests], [of_w]), ("both, the other way about", [requests, views], [of_w]),
    ("requests that aren't live", [views, b"\0" + requests[1:]], taken), ("requests without records", [views, side_of(3, 1, [])], []),
    ("two of views", [views, side_of(2, 10, [first])], taken[:1]), ("neither", [b"", side_of(1, 1, [])], []),
]:
    check(name, records_in(sides), wanted)

# What a build must compile, in a project with two libraries.
os.makedirs("vunit_out")
for path, text in {
    "p.vhd": "package p is\nend package p;\n",
    "u1.vhd": "use work.p.all;\npackage u1 is\nend package u1;\n",
    "v.vhd": "package v is\nend package v;\n",
    "u2.vhd": "library lib;\nuse lib.p.all;\npackage u2 is\nend package u2;\n",
    "u3.vhd": "library lib;\nuse lib.u1.all;\npackage u3 is\nend package u3;\n",
    "vunit.csv": "lib,p.vhd\n lib , v.vhd\n",
}.items():
    with open(path, "w") as file:
        file.write(text)


def whole(request):
    """What a compiler gives that says all of its request."""
    return b"<" + request + b">"


def packages(request):
    """What a compiler gives that says which packages its text has, by their lines. It refuses a text with the word `refused`."""
    text = read_request(request)[2]
    return None if b"refused" in text else b"".join(line for line in text.splitlines(True) if line.startswith(b"package"))


def compiled(compiler, *edits):
    """The paths of the files that a build compiles after these edits, over the records of one before them."""
    graph = graph_of(".")
    built = built_over(graph, [], compiler)[1]
    records = [RequestRecord(asked_at(graph, at, built), built[at].artefact) for at in range(len(graph))]
    kept = {}
    for path, text in edits:
        with open(path) as file:
            kept[path] = file.read()
        with open(path, "w") as file:
            file.write(text)
    graph = graph_of(".")
    found = [graph[at].path.decode() for at in built_over(graph, records, compiler)[0]]
    for path, text in kept.items():
        with open(path, "w") as file:
            file.write(text)
    return found


check("a listed project", [entry[1:] for entry in graph_of(".")],
      [(b"p.vhd", (b"@self", b"child-analyse"), b"package p is\nend package p;\n", ()),
       (b"v.vhd", (b"@self", b"child-analyse"), b"package v is\nend package v;\n", (0,))])
check("a listed project of which the first file is edited", compiled(whole, ("p.vhd", "package p is\nend;\n")), ["p.vhd", "v.vhd"])
with open("vunit.toml", "w") as file:
    file.write('[[library]]\nname = "lib"\nfiles = ["u1.vhd", "p.vhd", "v.vhd"]\n'
               '[[library]]\nname = "tb_lib"\nfiles = ["u[23].vhd"]\noptions = ["-x"]\n')
check("compile order", [(entry.path, entry.deps) for entry in graph_of(".")],
      [(b"p.vhd", ()), (b"u1.vhd", (0,)), (b"v.vhd", ()), (b"u2.vhd", (0,)), (b"u3.vhd", (0, 1))])
for compiler in whole, packages:
    check("nothing is edited", compiled(compiler), [])
check("p is edited", compiled(whole, ("p.vhd", "package p is\nend;\n")), ["p.vhd", "u1.vhd", "u2.vhd", "u3.vhd"])
check("u1 is edited", compiled(whole, ("u1.vhd", "use work.p.all;\npackage u1 is\nend;\n")), ["u1.vhd", "u3.vhd"])
check("p is edited, and what is made of it is the same", compiled(packages, ("p.vhd", "package p is\nend;\n")), ["p.vhd"])
check("p is edited, and what is made of it isn't", compiled(packages, ("p.vhd", "package p is \nend;\n")), ["p.vhd", "u1.vhd", "u2.vhd", "u3.vhd"])
check("u1 is refused", compiled(packages, ("u1.vhd", "use work.p.all;\npackage u1 is\nend; -- refused\n")), ["u1.vhd"])
check("no store", records_of("."), [])

# What a compiler is handed, and what is built.
graph = graph_of(".")
built = built_over(graph, [], lambda request: b"%d" % len(request))[1]
check("the request of u1", read_request(request_of(asked_at(graph, 1, built))), (b"lib", b"u1.vhd", graph[1].text, (tuple(built[0]),)))
check("what is built", built[0], Product(b"lib", b"p.vhd", b"%d" % (4 + 4 + 3 + 4 + 5 + 4 + len(graph[0].text) + 4)))
END
