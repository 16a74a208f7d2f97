"""Takes comments out of texts by chance, and sees by a plain program that the tokens and their places are as before and that
no comment is left."""

import os, random, sys
from plain_rules import GAP, is_tick_after, tokens_of

sys.path.insert(0, os.path.join(os.environ["TOP"], "wrappers"))
from vhdl_comments import without_comments

PIECES = [*"\"\\'`-/*()[];.#_:,& \t\n\n\r\v\f", "--", "/*", "*/", "'a'", "'\"'", "'-'", "\"--\"", "\"\"", "\\--\\", "all",
          "subtype", "is", "begin", "x", "abc_1", "16#FF#", "1.5", "1", "\xa7", "  ", "-- \"", "--'", "/* \n -- */", "/**/"]


def places(text):
    """Each token with its line and its column; a line ends at one of four bytes."""
    found, line, begin, at = [], 0, 0, 0
    for token, place in tokens_of(text):
        while at < place:
            if text[at] in "\n\v\f\r":
                line, begin = line + 1, at + 1
            at += 1
        found.append((token, line, place - begin))
    return found


def gaps(text):
    """The gaps of a text, by the tokens between them. None where a comment, a string or an extended identifier isn't closed, or
    an apostrophe is neither that of a character nor a tick after what has one: no VHDL has these."""
    found, at, last = [], 0, ""
    tokens = {place: token for token, place in tokens_of(text)}
    while at < len(text):
        if at in tokens:
            if text.startswith("/*", at) or tokens[at] in '"\\' or tokens[at] == "'" and not is_tick_after(last):
                return None
            last = tokens[at]
            at += len(last)
        else:
            gap = GAP.match(text, at)
            found.append(gap[0])
            at = gap.end()
    return found


chance, compared = random.Random(1076), 0
for _ in range(20_000):
    text = "".join(chance.choice(PIECES) for _ in range(chance.randint(0, 24)))
    if (before := gaps(text)) is None:
        continue
    compared += 1
    got = without_comments(text.encode("latin-1"), False).decode("latin-1")
    assert places(got) == places(text), (text, got)
    assert not any(gap.startswith(("--", "/*")) for gap in gaps(got)), (text, got)
    assert len(got) <= len(text) and sum(map(text.count, "\n\v\f\r")) == sum(map(got.count, "\n\v\f\r")), (text, got)
    blocks = without_comments(text.encode("latin-1"), True).decode("latin-1")
    assert places(blocks) == places(text), (text, blocks)
    kept = [gap for gap in gaps(blocks) if gap.startswith("/*")]
    assert len(kept) == sum(gap.startswith("/*") for gap in before), (text, blocks)
assert compared > 5_000, compared
