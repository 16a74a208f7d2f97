"""Takes comments out of VHDL, by the tokens of IEEE Std 1076-2008, clause 15: what looks like one inside a string, a character
or an extended identifier isn't one. (It is written without the module re, whose import takes as long as the whole module.)"""

# What begins a comment, a tool directive, a string, an extended identifier, and an apostrophe.
MARKS = (b"--", b"/*", b"`", b'"', b"\\", b"'")
BLANKS = b" \t\n\v\f\r"
LINE_ENDS = (b"\n", b"\v", b"\f", b"\r")
# Of these the tokens are made that may come before an apostrophe, but parentheses and brackets.
IN_NAMES = b"ABCDEFGHIJKLMNOPQRSTUVWXYZabcdefghijklmnopqrstuvwxyz0123456789_"
IN_WORDS = IN_NAMES + b".#"
# A blank in the place of each byte but the ends of lines.
BLANKED = bytes(byte if bytes((byte,)) in LINE_ENDS else 32 for byte in range(256))
RESERVED = frozenset(b"""
abs access after alias and architecture array assert assume assume_guarantee attribute begin block body buffer bus case
component configuration constant context cover default disconnect downto else elsif end entity exit fairness file for
force function generate generic group guarded if impure in inertial inout is label library linkage literal loop map mod
nand new next nor not null of on open or others out package parameter port postponed procedure process property
protected pure range record register reject release rem report restrict restrict_guarantee return rol ror select
sequence severity shared signal sla sll sra srl strong then to transport type unaffected units until use variable vmode
vprop vunit wait when while with xnor xor
""".split())


def last_token(run):
    """The last token of a text of letters, digits and the like: a word, a number that begins with a digit, or one byte."""
    while True:
        if run[:1].isalpha():
            rest = run.lstrip(IN_NAMES)
        elif run[:1].isdigit():
            rest = b""
        else:
            rest = run[1:]
        if not rest:
            return run
        run = rest


def is_before_tick(text, before):
    """Whether an apostrophe after this text is a tick: `before` says it of the piece that the text follows."""
    text = text.rstrip(BLANKS)
    if run := text[len(text.rstrip(IN_WORDS)) :]:
        last = last_token(run)
        return last[:1].isalpha() and last.lower() not in RESERVED
    return text.endswith((b")", b"]")) if text else before


def quoted_end(source, first, limit):
    """Where a string or an extended identifier ends that begins at a place; 0 where none of it is before the end of the line. The
    mark twice stands for itself."""
    mark, last, at = source[first : first + 1], 0, first + 1
    while (closed := source.find(mark, at, limit)) >= 0:
        last = at = closed + 1
        if source[at : at + 1] != mark:
            break
        at += 1
    return last


class Pieces:
    """What marks begin in a source, one after the other. A string that isn't closed begins nothing."""

    def __init__(self, source):
        self.source = source
        self.nexts = {mark: place for mark in MARKS if (place := source.find(mark)) >= 0}
        self.ends = [end for end in LINE_ENDS if end in source]

    def line_end(self, at):
        found = [place for end in self.ends if (place := self.source.find(end, at)) >= 0]
        return min(found) if found else len(self.source)

    def after(self, at):
        """The mark, the place and the end of the next piece from a place on, or None. The end is that of the line, of the
        string, or of the mark itself."""
        while True:
            for mark, place in list(self.nexts.items()):
                if place < at:
                    if (place := self.source.find(mark, at)) < 0:
                        del self.nexts[mark]
                    else:
                        self.nexts[mark] = place
            if not self.nexts:
                return None
            mark = min(self.nexts, key=self.nexts.get)
            first = self.nexts[mark]
            if mark == b"'" or mark == b"/*":
                return mark, first, first + len(mark)
            last = self.line_end(first)
            if mark == b"--" or mark == b"`":
                return mark, first, last
            if last := quoted_end(self.source, first, last):
                return mark, first, last
            at = first + 1


def without_ends(text, ends):
    """A text without blanks before each of these ends of lines, and at its own end."""
    if not ends:
        return text.rstrip(b" \t")
    return ends[0].join([without_ends(line, ends[1:]) for line in text.split(ends[0])])


def without_comments(source, keeps_blocks):
    """The source with blanks for its comments, and without blanks at the ends of lines; lines and columns do not move. With
    `keeps_blocks` block comments stay. The rest of a text after an unclosed one stays too."""
    pieces, parts, at, before, text = Pieces(source), [], 0, False, b""
    while found := pieces.after(at):
        mark, first, last = found
        gap = source[at:first]
        parts.append(gap)
        if gap.strip(BLANKS):
            text = gap
        piece = source[first:last]
        if mark == b"'":
            # (of a character it is the first, and of a tick it is all)
            before = not is_before_tick(text, before) and source[first + 2 : first + 3] == b"'"
            text = b""
            if before:
                piece, last = source[first : first + 3], first + 3
        elif mark == b"/*":
            closed = source.find(b"*/", last)
            last = len(source) if closed < 0 else closed + 2
            piece = source[first:last]
            if closed >= 0 and not keeps_blocks:
                piece = piece.translate(BLANKED)
        elif mark == b"--":
            piece = b""
        elif mark != b"`":
            before, text = True, b""
        parts.append(piece)
        at = last
    parts.append(source[at:])
    return without_ends(b"".join(parts), pieces.ends)
