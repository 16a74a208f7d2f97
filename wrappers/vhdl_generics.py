"""The generic constants that an entity declares, by the tokens of IEEE Std 1076-2008, clause 15, and its interface lists, clause
6.5. (It is written without the module re, as vhdl_comments.py is.)"""

# Why it is so:
# Which generics a bench declares is read from its source, since asking GHDL would be one more start.

BLANKS = b" \t\n\v\f\r\xa0"
IN_NAMES = frozenset(b"ABCDEFGHIJKLMNOPQRSTUVWXYZabcdefghijklmnopqrstuvwxyz0123456789_") | frozenset(range(0xC0, 0x100))
# Words that begin another element of a generic clause than a constant.
OTHERS = (b"type", b"package", b"function", b"procedure", b"pure", b"impure")


class Tokens:
    """The tokens of a text from an offset on, one after the other: words in lower case, and b"" once the text has ended."""

    def __init__(self, text, offset=0):
        self.text, self.at, self.may_tick = text, offset, False

    def skip_comments(self):
        text, size = self.text, len(self.text)
        while self.at < size:
            if text[self.at] in BLANKS:
                self.at += 1
            elif text.startswith(b"--", self.at):
                self.at = min((end for end in (text.find(mark, self.at) for mark in (b"\n", b"\r", b"\v", b"\f")) if end >= 0),
                              default=size)
            elif text.startswith(b"/*", self.at):
                end = text.find(b"*/", self.at + 2)
                self.at = size if end < 0 else end + 2
            else:
                return

    def quoted_end(self, first):
        """Where a string or an extended identifier ends: its mark twice stands for itself."""
        mark, at = self.text[first : first + 1], first + 1
        while (at := self.text.find(mark, at)) >= 0 and self.text[at + 1 : at + 2] == mark:
            at += 2
        return len(self.text) if at < 0 else at + 1

    def end_of(self, first):
        """Where the token ends that begins here."""
        text, byte = self.text, self.text[first]
        if byte in IN_NAMES:
            at = first + 1
            while at < len(text) and text[at] in IN_NAMES:
                at += 1
            return at
        if byte in b'"\\':
            return self.quoted_end(first)
        if byte == ord("'") and not self.may_tick and text[first + 2 : first + 3] == b"'":
            return first + 3
        return first + 1

    def next(self):
        self.skip_comments()
        first = self.at
        if first >= len(self.text):
            return b""
        self.at = self.end_of(first)
        token = self.text[first : self.at]
        # (an apostrophe behind one of these is a tick and begins no character)
        self.may_tick = token[0] in IN_NAMES or token[:1] in (b")", b"]", b"\\", b'"')
        return token.lower() if token[0] in IN_NAMES else token


def name_in_text(name):
    """A name in the form of tokens: a basic one in lower case."""
    return name if name.startswith(b"\\") else name.lower()


def constants_in(tokens):
    """The names of the constants of an interface list, from behind its opening bracket to its end."""
    found, head, is_named, depth = [], [], False, 1
    while depth > 0 and (token := tokens.next()):
        depth += (token == b"(") - (token == b")")
        if depth == 0 or (token == b";" and depth == 1):
            if is_named and head and head[0] not in OTHERS:
                found += [name for name in head if name not in (b"constant", b",")]
            head, is_named = [], False
        elif token == b":":
            is_named = True
        elif not is_named:
            head.append(token)
    return found


def generics_of(source, offset, name):
    """The names of the generic constants of the entity of this name, whose design unit begins at an offset of a source."""
    tokens = Tokens(source, offset)
    while token := tokens.next():
        if token == b"entity" and tokens.next() == name_in_text(name) and tokens.next() == b"is":
            if tokens.next() == b"generic" and tokens.next() == b"(":
                return constants_in(tokens)
            return []
    return []
