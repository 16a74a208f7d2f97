"""Small sides of form 3 by chance, each made of its seed alone: payloads of two or three files whose texts, products and
numbers meet; some are invalid.

    side_at(SEED)         the bytes of a side of generation 1
    row_of(SEED)          a side and what a store says of it, as a line of the table of crates/tests_store

usage: random_requests.py COUNT     prints the table of the first sides

A line has four parts. First the side's bytes. Second the texts, products and records that it stands for, as below. Third, of
`a.vhd`, and of `b.vhd` over it, both with the text `x`, `f` if the latest record is current and else `s`, and then the borrowed
artefact of each, or `-`. Fourth the bytes of the other side after a compaction. A text is its one byte, or `.` if it is empty.
A product is the first letter of its path and its artefact. A record is the letter, its number of words, its text, the number of
the product of each dependency, a colon and its product.
"""
import struct, sys

from random_projects import Chance
from store_reader import Carried, Entry, Requests, has_asked, latest_built, payloads, side_of, spelled

NAMES = [b"a.vhd", b"b.vhd", b"c.vhd"]
SOURCES = [b"x"] * 5 + [b"w", b"y"]
ARTEFACTS = [b"y", b"z", b"w", b"x", b""]
GRAPH = [Entry(b"lib", b"a.vhd", (b"cc",), b"x", ()), Entry(b"lib", b"b.vhd", (b"cc",), b"x", (0,))]


def some(chance, items):
    return items[chance.below(len(items))]


def ref(chance, texts, among):
    """A text as it should be spelled, or now and then another way."""
    text = some(chance, among)
    if chance.below(14) == 0:
        return b"\0" + struct.pack("<Q", chance.below(5))
    if text in texts and chance.below(14):
        return b"\0" + struct.pack("<Q", texts.index(text))
    if text not in texts:
        texts.append(text)
    return b"\1" + spelled(text)


def numbers(chance, name, products):
    """Products of other files, with a fault now and then."""
    if chance.below(12) == 0:
        return [chance.below(4) for _ in range(chance.below(3))]
    found = []
    for below in NAMES[:NAMES.index(name)]:
        there = [at for at, product in enumerate(products) if product.path == below]
        if there and chance.below(8) and (below == b"a.vhd" or chance.below(2)):
            found.append(there[-1] if chance.below(4) else some(chance, there))
    return found


def payload(chance, shelf):
    texts = list(shelf.texts)
    name = some(chance, NAMES)
    head = spelled(some(chance, [b"lib"] * 20 + [b""])) + spelled(name)
    if chance.below(7) == 0:
        made = b"\0" + head + ref(chance, texts, ARTEFACTS)
    else:
        words = some(chance, [[b"cc"]] * 14 + [[b"cc", b"d"], []])
        made = b"\1" + head + struct.pack("<I", len(words)) + b"".join(map(spelled, words)) + ref(chance, texts, SOURCES)
        below = numbers(chance, name, shelf.products)
        made += struct.pack("<I%dQ" % len(below), len(below), *below) + ref(chance, texts, ARTEFACTS)
    fault = chance.below(24)
    return {0: made[:-1], 1: made + b"\0", 2: b"\2" + made[1:]}.get(fault, made)


def side_at(seed):
    chance = Chance(seed)
    given = []
    for _ in range(4 + chance.below(6)):
        given.append(payload(chance, Requests(given)))
    return side_of(3, 1, given)


def mark(text):
    return text.decode() or "."


def product_text(path, artefact):
    return path.decode()[0] + mark(artefact)


def record_text(read, record):
    asked = record.asked
    deps = "".join(str(read.products.index(product)) for product in asked.below)
    return "%s%d%s%s:%s," % (asked.path.decode()[0], len(asked.command), mark(asked.text), deps, product_text(asked.path, record.artefact))


def listing(read):
    """Texts, products and records, with a slash between these lists."""
    products = [product_text(product.path, product.artefact) for product in read.products]
    records = [record_text(read, record) for record in read.records]
    return "".join([*map(mark, read.texts), "/", *products, "/", *records])


def letters_of(records):
    lent = [latest_built(records, entry) for entry in GRAPH]
    fits = ["f" if has_asked(records, GRAPH, at) else "s" for at in (0, 1)]
    return "".join(fits + ["-" if one is None else mark(one.artefact) for one in lent])


def row_of(seed):
    side = side_at(seed)
    read = Requests(payloads(side)[0])
    return "|".join([side.hex(), listing(read), letters_of(read.records), side_of(3, 2, Carried(read.records).payloads).hex()])


def main():
    if len(sys.argv) != 2:
        sys.exit(__doc__)
    for seed in range(int(sys.argv[1])):
        print(row_of(seed))


if __name__ == "__main__":
    main()
