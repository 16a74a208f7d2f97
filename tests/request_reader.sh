#!/bin/sh
# The reader of stores of requests agrees with the examples of docs/FORMATS.md, and with small stores that were written by hand.
. "$TOP/tests/support/needs.sh"
needs python3
PYTHONPATH=$TOP/tests/support exec python3 -B - "$TOP/docs/FORMATS.md" <<'END'
import re, struct, sys

from store_reader import Asked, Carried, Entry, Product, Requests, RequestRecord, counting_side, has_asked, latest_requests, payloads, side_of

with open(sys.argv[1]) as file:
    page = re.sub(r"\s+", " ", file.read())


def on_page(beginning):
    """The bytes of the one example on the page that begins so."""
    found = {hexes for hexes in re.findall(r"`([0-9a-f ]+)`", page) if hexes.startswith(beginning)}
    if len(found) != 1:
        sys.exit(f"the page has {len(found)} examples that begin with {beginning}")
    return bytes.fromhex(found.pop())


def check(name, found, wanted):
    if found != wanted:
        sys.exit(f"{name}: it is\n{found}\nand not\n{wanted}")


def text(data):
    return struct.pack("<I", len(data)) + data


def ref(given):
    """A new text, or the number of one."""
    return b"\1" + text(given) if isinstance(given, bytes) else b"\0" + struct.pack("<Q", given)


def product(path, artefact, library=b"lib"):
    return b"\0" + text(library) + text(path) + ref(artefact)


def record(path, source, deps=(), artefact=b"", words=(b"cc",), kind=1):
    spelled = struct.pack("<I", len(words)) + b"".join(map(text, words))
    numbers = struct.pack("<I%dQ" % len(deps), len(deps), *deps)
    return bytes([kind]) + text(b"lib") + text(path) + spelled + ref(source) + numbers + ref(artefact)


# The examples of form 3, and the same by hand.
first = on_page("01 03000000 6c6962 05000000 612e766864 01000000 02000000 6363 01 01000000 78 00000000 01 01000000 79")
second = on_page("01 03000000 6c6962 05000000 622e766864 01000000 02000000 6363 00 0000000000000000 01000000 0000000000000000 01 ")
check("the examples by hand", (record(b"a.vhd", b"x", artefact=b"y"), record(b"b.vhd", 0, [0], b"z")), (first, second))
a_y, b_z = Product(b"lib", b"a.vhd", b"y"), Product(b"lib", b"b.vhd", b"z")
a = RequestRecord(Asked((b"cc",), b"lib", b"a.vhd", b"x", ()), b"y")
b = RequestRecord(Asked((b"cc",), b"lib", b"b.vhd", b"x", (a_y,)), b"z")
read = Requests([first, second])
check("the records", read.records, [a, b])
check("the products", read.products, [a_y, b_z])
check("the texts", read.texts, [b"x", b"y", b"z"])
side = side_of(3, 1, [first, second])
check("the side", (len(side), payloads(side)), (126, ([first, second], 125)))
check("which side counts", counting_side([side_of(2, 9, []), side], 3), side)

# A product alone, before the record over it; and once more, which adds nothing.
alone = product(b"a.vhd", b"y")
read = Requests([alone, alone, record(b"b.vhd", b"x", [0], 0)])
check("a product alone", (read.records, read.texts),
      ([RequestRecord(b.asked, b"y")], [b"y", b"x"]))
check("a record of a product that is there", Requests([alone, record(b"a.vhd", b"x", (), 0)]).products, [a_y])
check("one new text in two places", len(Requests([record(b"a.vhd", b"x", (), 0)]).records), 1)

for name, payload in [
    ("nothing", b""),
    ("another first byte", record(b"c.vhd", b"w", kind=2)),
    ("a product that is there", alone[:-6] + ref(1)),
    ("a text that is there", record(b"c.vhd", b"x")),
    ("the artefact is the new text", record(b"c.vhd", b"w", artefact=b"w")),
    ("an artefact that is there", record(b"c.vhd", b"w", artefact=b"z")),
    ("the number of no text", record(b"c.vhd", 3)),
    ("the number of no artefact", record(b"c.vhd", b"w", artefact=4)),
    ("the number of no product", record(b"c.vhd", b"w", [2])),
    ("a byte more", record(b"c.vhd", b"w") + b"\0"),
    ("a byte less", record(b"c.vhd", b"w")[:-1]),
    ("a product with a byte more", product(b"c.vhd", b"w") + b"\0"),
    ("a text by another tag", b"\0" + text(b"lib") + text(b"c.vhd") + b"\2" + text(b"w")),
    ("a dependency twice", record(b"c.vhd", b"w", [0, 0])),
    ("the name of a dependency", record(b"a.vhd", b"w", [0])),
    ("no word", record(b"c.vhd", b"w", words=())),
    ("65 words", record(b"c.vhd", b"w", words=[b""] * 65)),
    ("a word that is too long", record(b"c.vhd", b"w", words=[b"c" * 1025])),
    ("no library", product(b"c.vhd", b"w", b"")),
    ("a library that is too long", product(b"c.vhd", b"w", b"l" * 65)),
    ("no path", product(b"", b"w")),
    ("a path that is too long", record(b"c" * 1025, b"w")),
    ("an artefact that is too long", product(b"c.vhd", b"a" * 262145)),
    ("a text that is too long", record(b"c.vhd", b"a" * 4194305)),
    ("a count beyond the bytes", record(b"c.vhd", b"w")[:26] + b"\xff" * 4),
]:
    read = Requests([first, second, payload, record(b"d.vhd", b"w", [0, 1], b"v")])
    check(name, [name_ for name_ in read.records[:2]] + [len(read.records)], [a, b, 3])
    check(name + ", and it adds nothing", (read.texts, len(read.products)), ([b"x", b"y", b"z", b"w", b"v"], 3))

# What would be asked now.
graph = [Entry(b"lib", b"a.vhd", (b"cc",), b"x", ()), Entry(b"lib", b"b.vhd", (b"cc",), b"x", (0,))]
same = record(b"a.vhd", b"w", (), 1)
other = record(b"a.vhd", b"w", (), b"v")
for name, given, wanted in [
    ("both fit", [first, second], [True, True]),
    ("an equal artefact of another text", [first, second, same], [False, True]),
    ("another artefact", [first, second, other], [False, False]),
    ("no record of a dependency", [alone, record(b"b.vhd", b"x", [0], 0)], [False, False]),
]:
    check(name, [has_asked(Requests(given).records, graph, at) for at in (0, 1)], wanted)

# What compaction keeps: the product that b.vhd is over is written alone, since a.vhd was recorded anew.
check("compaction of what is live", Carried([a, b]).payloads, [first, second])
again = Requests([first, second, other]).records
check("the latest", latest_requests(again), [b, RequestRecord(Asked((b"cc",), b"lib", b"a.vhd", b"w", ()), b"v")])
check("compaction", Carried(again).payloads, [alone, record(b"b.vhd", b"x", [0], b"z"), other])
check("what it keeps", Requests(Carried(again).payloads).records, latest_requests(again))
check("compaction of the latest", Carried(latest_requests(again)).payloads, Carried(again).payloads)
END
