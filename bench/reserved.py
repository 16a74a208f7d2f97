#!/usr/bin/env python3
"""Finds the table of reserved words that crates/vhdl_lex/src/reserved.rt has.

The place of a word is a sum of its first, middle and last letter in lower case and of its length, each times a factor,
modulo 1024. The factors are tried at random until no two words have one place.

usage: reserved.py          prints the tables of the factors in use, and ends with 1 where the source has others
       reserved.py SEED     searches for other factors, and prints them
"""

import pathlib
import random
import re
import sys

WORDS = """abs access after alias all and architecture array assert assume assume_guarantee attribute begin block body
buffer bus case component configuration constant context cover default disconnect downto else elsif end entity exit
fairness file for force function generate generic group guarded if impure in inertial inout is label library linkage
literal loop map mod nand new next nor not null of on open or others out package parameter port postponed procedure
process property protected pure range record register reject release rem report restrict restrict_guarantee return rol
ror select sequence severity shared signal sla sll sra srl strong subtype then to transport type unaffected units until
use variable vmode vprop vunit wait when while with xnor xor""".split()
PLACES = 1024
IN_USE = (115, 175, 174, 74)
SOURCE = pathlib.Path(__file__).resolve().parent.parent / "crates/vhdl_lex/src/reserved.rt"


def place(word, factors):
    first, middle, last = (ord(word[at]) | 32 for at in (0, len(word) // 2, len(word) - 1))
    parts = (first, middle, last, len(word) % 64)
    return sum(factor * part for factor, part in zip(factors, parts)) % PLACES


def is_perfect(factors):
    return len({place(word, factors) for word in WORDS}) == len(WORDS)


def found(seed):
    chance = random.Random(seed)
    while True:
        factors = tuple(chance.randrange(1, 256) for _ in range(4))
        if is_perfect(factors):
            return factors


def tables(factors):
    """The letters of all words, where each word begins and the last ends, and the number of the word of each place."""
    starts = [0]
    for word in WORDS:
        starts.append(starts[-1] + len(word))
    numbers = [0] * PLACES
    for number, word in enumerate(WORDS, 1):
        numbers[place(word, factors)] = number
    return "".join(WORDS), starts, numbers


def tables_of_source():
    source = SOURCE.read_text()
    letters = re.search(r'b"(\w+)"', source).group(1)
    lists = [re.search(name + r": \[u\d+; \d+\] = \[([^\]]*)\]", source).group(1) for name in ("STARTS", "NUMBERS")]
    return (letters, *([int(number) for number in re.findall(r"\d+", numbers)] for numbers in lists))


def main():
    if len(sys.argv) == 2:
        print("factors of the first, middle and last letter and of the length:", *found(int(sys.argv[1])))
        return 0
    letters, starts, numbers = tables(IN_USE)
    print(letters, starts, numbers, sep="\n")
    if not is_perfect(IN_USE) or tables_of_source() != (letters, starts, numbers):
        print("the source has other tables", file=sys.stderr)
        return 1
    return 0


sys.exit(main())
