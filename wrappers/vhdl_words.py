"""Finds names in VHDL texts, by the tokens of IEEE Std 1076-2008, clause 15, outside comments."""

import re

from vhdl_comments import RESERVED

TOKEN = re.compile(rb"""
    (?P<comment>--[^\n\v\f\r]*|/\*.*?(?:\*/|\Z))
  | (?P<string>"(?:[^"\n\r]|"")*")
  | (?P<extended>\\(?:[^\\\n\r]|\\\\)*\\)
  | (?P<word>[A-Za-z\x80-\xff][A-Za-z0-9_\x80-\xff]*)
  | (?P<number>[0-9][0-9_]*(?:\#[0-9A-Za-z_.]*\#)?)
  | (?P<letter>'[^\n\r]')
  | (?P<other>[^\s\x00-\x20])
""", re.VERBOSE | re.DOTALL)
LINE_END = re.compile(rb"[\n\v\f\r]")
DESIGN_UNITS = (b"entity", b"package", b"context", b"configuration")


class Token:
    """A token and its place: a basic identifier or a reserved word in lower case, anything else unchanged."""

    __slots__ = ("start", "end", "text", "is_name")

    def __init__(self, start, end, text, is_name):
        self.start, self.end, self.text, self.is_name = start, end, text, is_name


def tokens_of(text):
    found, at, tick = [], 0, False
    while match := TOKEN.search(text, at):
        kind, at = match.lastgroup, match.end()
        if kind == "comment":
            continue
        written = match[0]
        if kind == "letter" and tick:
            # (behind a name an apostrophe is a tick)
            written, at = b"'", match.start() + 1
        if kind == "word":
            written = written.lower()
        is_name = kind == "extended" or kind == "word" and written not in RESERVED
        found.append(Token(match.start(), at, written, is_name))
        tick = is_name or written in (b")", b"]", b"all")
    return found


def end_of_token(text, at):
    """Where the token ends that begins at an offset; the end of its line if it isn't closed."""
    match = TOKEN.match(text, at)
    if match is None:
        return min(at, len(text))
    line_end = LINE_END.search(text, at)
    line_end = line_end.start() if line_end else len(text)
    if match[0] in (b'"', b"\\") or match.lastgroup == "comment":
        return line_end
    return match.end()


def as_name(name):
    """A name as tokens have it: a basic one in lower case."""
    return name if name.startswith(b"\\") else name.lower()


class Words:
    """The tokens of one text, in which names are looked for."""

    def __init__(self, text, library):
        """`library` is that of the file, which `work` stands for."""
        self.tokens, self.library = tokens_of(text), as_name(library)

    def is_at(self, at, *wanted):
        """Whether these texts stand from a token on; None stands for any name."""
        if at < 0 or at + len(wanted) > len(self.tokens):
            return False
        return all(token.is_name if text is None else token.text == text for token, text in zip(self.tokens[at:], wanted))

    def first(self, *wanted, name):
        """The token with this index in the first run of these texts."""
        first = wanted[0]
        for at, token in enumerate(self.tokens):
            if (first is None or token.text == first) and self.is_at(at, *wanted):
                return self.tokens[at + name]
        return None

    def libraries(self, library):
        return [library, b"work"] if library == self.library else [library]

    def all_of(self, library, count):
        """The name in `use LIBRARY.all`, of the uses of this library that one with this number, from 0 on."""
        found = [at for at, token in enumerate(self.tokens) if token.text in self.libraries(library)
                 and self.is_at(at + 1, b".", b"all") and not self.is_at(at - 1, b".")]
        if count >= len(found):
            return None
        return self.tokens[found[count]].start, self.tokens[found[count] + 2].end

    def reference(self, library, unit):
        """Where a unit of a library is named first: `LIBRARY.UNIT`, and where that isn't so, as the unit that another belongs to."""
        for at, token in enumerate(self.tokens):
            if token.text in self.libraries(library) and self.is_at(at + 1, b".", unit):
                return token.start, self.tokens[at + 2].end
        return self.primary(library, unit)

    def primary(self, library, unit):
        """The name of a unit in an architecture, a body or a configuration of it, in the same library."""
        found = None
        if library == self.library:
            found = (self.first(b"architecture", None, b"of", unit, name=3) or self.first(b"configuration", None, b"of", unit, name=3)
                     or self.first(b"package", b"body", unit, name=2))
        found = found or self.first(unit, name=0)
        return found and (found.start, found.end)

    def architecture(self, library, entity, name):
        """Where an architecture of an entity is named: `ENTITY(NAME)`, or `for NAME` in a configuration of it."""
        for at, token in enumerate(self.tokens):
            if token.text == entity and self.is_at(at + 1, b"(", name, b")"):
                return self.tokens[at + 2].start, self.tokens[at + 2].end
            if token.text == b"of" and self.is_at(at + 1, entity, b"is"):
                found = next((here for here in range(at + 3, len(self.tokens)) if self.is_at(here, b"for", name)), None)
                if found is not None:
                    return self.tokens[found + 1].start, self.tokens[found + 1].end
        return self.reference(library, entity)

    def declared(self, kind, name, of=None, number=0):
        """The name of a design unit where it is declared: an `architecture` of an entity, a `body`, or a primary unit. `number` says
        which of several, from 0 on."""
        if kind == b"architecture":
            runs, place = [(kind, name, b"of", of)], 1
        elif kind == b"body":
            runs, place = [(b"package", kind, name)], 2
        else:
            runs, place = [(unit, name) for unit in DESIGN_UNITS], 1
        found = [at + place for at in range(len(self.tokens)) if any(self.is_at(at, *run) for run in runs)
                 and not self.is_at(at - 1, b"end") and (kind or self.is_at(at + 2, b"is") or self.is_at(at + 2, b"of"))]
        return (self.tokens[found[number]].start, self.tokens[found[number]].end) if number < len(found) else None

    def units(self):
        """The names of the declared primary units, and of the primary units of bodies and architectures."""
        names = []
        for at in range(len(self.tokens)):
            if self.is_at(at - 1, b"end"):
                continue
            for wanted in ((b"package", b"body", None), (b"architecture", None, b"of", None), *((unit, None) for unit in DESIGN_UNITS)):
                if self.is_at(at, *wanted):
                    if wanted[-1] is None and (len(wanted) > 2 or self.is_at(at + 2, b"is") or self.is_at(at + 2, b"of")):
                        names.append(self.tokens[at + len(wanted) - 1].text)
                    break
        return list(dict.fromkeys(names))

    def case(self, name, count):
        """The string of the call `run("NAME")` with this number, from 0 on, without its quotes."""
        written = b'"' + name.replace(b'"', b'""') + b'"'
        found = [at for at in range(len(self.tokens)) if self.is_at(at, b"run", b"(", written, b")")]
        if count >= len(found):
            return None
        token = self.tokens[found[count] + 2]
        return token.start + 1, token.end - 1
