"""Reads TOML 1.0 for the tools beside vunit_run: Python has a reader of its own from 3.11 on alone. A date or a time is read as the
text that it is."""

import re

# How deep arrays and inline tables may lie in each other, and how many parts a key may have: the limits of vunit.toml.
DEPTH_LIMIT = 80
BARE_KEY = re.compile(r"[A-Za-z0-9_-]+")
BLANKS = re.compile(r"[ \t]*")
COMMENT = re.compile(r"#[^\n]*")
LINE_END = re.compile(r"\r?\n")
INTEGER = re.compile(r"[+-]?(?:0|[1-9](?:_?[0-9])*)|0x[0-9A-Fa-f](?:_?[0-9A-Fa-f])*|0o[0-7](?:_?[0-7])*|0b[01](?:_?[01])*")
REAL = re.compile(r"[+-]?(?:(?:0|[1-9](?:_?[0-9])*)(?:\.[0-9](?:_?[0-9])*)?(?:[eE][+-]?[0-9](?:_?[0-9])*)?|inf|nan)")
MOMENT = re.compile(r"\d{4}-\d\d-\d\d(?:[Tt ]\d\d:\d\d:\d\d(?:\.\d+)?(?:[Zz]|[+-]\d\d:\d\d)?)?|\d\d:\d\d:\d\d(?:\.\d+)?")
SCALAR = re.compile(r"[A-Za-z0-9_.:+-]+")
ESCAPES = {"b": "\b", "t": "\t", "n": "\n", "f": "\f", "r": "\r", '"': '"', "\\": "\\"}
CONTROL = re.compile(r"[\x00-\x08\x0b-\x1f\x7f]")
PLAIN_IN_LINE = {'"': re.compile(r'[^"\\\n\r]*'), "'": re.compile(r"[^'\n\r]*")}
PLAIN_IN_LINES = {'"': re.compile(r'[^"\\]*'), "'": re.compile(r"[^']*")}


class TomlFault(Exception):
    """The fault of a text, with line and column, both from 1 on."""

    def __init__(self, text, at, what):
        self.line, self.column = text.count("\n", 0, at) + 1, at - (text.rfind("\n", 0, at) + 1) + 1
        super().__init__(f"{self.line}:{self.column}: {what}")


class Table(dict):
    """A table. `made_by` is what made it: a header, the way to one, a dotted key, or braces. `lines` has the line of each key."""

    def __init__(self, made_by, line):
        super().__init__()
        self.made_by, self.line, self.lines = made_by, line, {}


class TableArray(list):
    """An array that headers in double brackets made."""


HEADER, WAY, DOTTED, BRACES = "a header", "the way to a header", "a dotted key", "braces"


class Reader:
    def __init__(self, text):
        self.text, self.at, self.known = text, 0, (0, 1)
        self.top = self.table = Table(HEADER, 1)

    def fault(self, what, at=None):
        return TomlFault(self.text, self.at if at is None else at, what)

    def line(self):
        # (counted on from the last place that was asked for, as texts may be long)
        known_at, known_line = self.known
        line = known_line + self.text.count("\n", known_at, self.at)
        self.known = self.at, line
        return line

    def take(self, pattern):
        found = pattern.match(self.text, self.at)
        if found:
            self.at = found.end()
        return found and found[0]

    def follows(self, mark):
        """Whether this comes next; then it is taken."""
        if not self.text.startswith(mark, self.at):
            return False
        self.at += len(mark)
        return True

    def expect(self, mark):
        if not self.follows(mark):
            raise self.fault(f"{mark} is missing here")

    def skip_lines(self):
        """Takes blanks, comments and the ends of lines."""
        while True:
            self.take(BLANKS)
            self.take_comment()
            if not self.take(LINE_END):
                return

    def take_comment(self):
        first = self.at
        comment = self.take(COMMENT)
        if comment and (odd := CONTROL.search(comment.removesuffix("\r"))):
            raise self.fault("a control character stands in a comment", first + odd.start())

    def end_line(self):
        self.take(BLANKS)
        self.take_comment()
        if self.at < len(self.text) and not self.take(LINE_END):
            raise self.fault("the line has to end here")

    def read(self):
        if odd := re.search(r"\r(?!\n)", self.text):
            raise self.fault("a carriage return stands without a line feed", odd.start())
        while True:
            self.skip_lines()
            if self.at == len(self.text):
                return self.top
            if self.follows("[["):
                self.begin_table("]]")
            elif self.follows("["):
                self.begin_table("]")
            else:
                self.take_pair(self.table)
            self.end_line()

    # Keys and tables.

    def key_part(self):
        self.take(BLANKS)
        if part := self.take(BARE_KEY):
            return part
        for mark in ('"', "'"):
            if self.text.startswith(mark, self.at):
                return self.text_in_line(mark)
        raise self.fault("a key is missing here")

    def key(self):
        parts = [self.key_part()]
        self.take(BLANKS)
        while self.follows("."):
            parts.append(self.key_part())
            self.take(BLANKS)
            if len(parts) > DEPTH_LIMIT:
                raise self.fault(f"a key has over {DEPTH_LIMIT} parts")
        return parts

    def begin_table(self, closing):
        first, line = self.at, self.line()
        *way, last = self.key()
        self.expect(closing)
        table = self.top
        for part in way:
            table = self.inner(table, part, WAY, (HEADER, WAY, DOTTED), first, line)
        there = table.get(last)
        table.lines.setdefault(last, line)
        if closing == "]]":
            if there is not None and not isinstance(there, TableArray):
                raise self.fault(f"{last} stands twice", first)
            self.table = Table(HEADER, line)
            table.setdefault(last, TableArray()).append(self.table)
        elif there is None:
            self.table = table[last] = Table(HEADER, line)
        elif isinstance(there, Table) and there.made_by == WAY:
            self.table, there.made_by = there, HEADER
        else:
            raise self.fault(f"{last} stands twice", first)

    def inner(self, table, part, made_by, allowed, first, line):
        """The table of this name within a table, which is made if it is missing."""
        there = table.get(part)
        if there is None:
            table.lines.setdefault(part, line)
            there = table[part] = Table(made_by, line)
        if isinstance(there, TableArray) and made_by == WAY:
            there = there[-1]
        if not isinstance(there, Table) or there.made_by not in allowed:
            raise self.fault(f"{part} stands twice", first)
        return there

    def take_pair(self, table, depth=0):
        first, line = self.at, self.line()
        *way, last = self.key()
        self.expect("=")
        for part in way:
            table = self.inner(table, part, DOTTED, (WAY, DOTTED), first, line)
        if last in table:
            raise self.fault(f"{last} stands twice", first)
        table.lines[last] = line
        self.take(BLANKS)
        table[last] = self.value(depth)

    # Values.

    def value(self, depth):
        if depth == DEPTH_LIMIT and self.text[self.at : self.at + 1] in ("[", "{"):
            raise self.fault(f"arrays and tables lie over {DEPTH_LIMIT} deep in each other")
        for mark in ('"', "'"):
            if self.text.startswith(mark * 3, self.at):
                return self.text_in_lines(mark)
            if self.text.startswith(mark, self.at):
                return self.text_in_line(mark)
        if self.follows("["):
            return self.array(depth + 1)
        if self.follows("{"):
            return self.inline_table(depth + 1)
        return self.scalar()

    def scalar(self):
        if moment := self.take(MOMENT):
            return moment
        first = self.at
        word = self.take(SCALAR) or ""
        if word in ("true", "false"):
            return word == "true"
        if INTEGER.fullmatch(word):
            number = int(word, 0 if word[:2] in ("0x", "0o", "0b") else 10)
            if not -(1 << 63) <= number < 1 << 63:
                raise self.fault("a number has over 64 bits", first)
            return number
        if REAL.fullmatch(word):
            return float(word)
        raise self.fault("this is no value", first)

    def array(self, depth):
        found = []
        while True:
            self.skip_lines()
            if self.follows("]"):
                return found
            found.append(self.value(depth))
            self.skip_lines()
            if not self.follows(","):
                self.expect("]")
                return found

    def inline_table(self, depth):
        table = Table(DOTTED, self.line())
        self.take(BLANKS)
        if not self.follows("}"):
            while True:
                self.take_pair(table, depth)
                self.take(BLANKS)
                if not self.follows(","):
                    break
            self.expect("}")
        close(table)
        return table

    # Texts.

    def escape(self):
        """What stands for an escape, behind its backslash."""
        first = self.at - 1
        letter = self.text[self.at : self.at + 1]
        self.at += 1
        if letter in ESCAPES and letter:
            return ESCAPES[letter]
        size = {"u": 4, "U": 8}.get(letter, 0)
        digits = self.text[self.at : self.at + size]
        if not size or not re.fullmatch(r"[0-9A-Fa-f]{%d}" % size, digits):
            raise self.fault("this is no escape", first)
        number = int(digits, 16)
        if number > 0x10FFFF or 0xD800 <= number < 0xE000:
            raise self.fault("this is no character", first)
        self.at += size
        return chr(number)

    def plain(self, pattern, first):
        part = self.take(pattern) or ""
        if odd := CONTROL.search(part.replace("\r\n", "\n\n")):
            raise self.fault("a control character stands in a text", first + odd.start())
        return part

    def text_in_line(self, mark):
        first, parts = self.at, []
        self.at += 1
        while True:
            parts.append(self.plain(PLAIN_IN_LINE[mark], self.at))
            if self.follows(mark):
                return "".join(parts)
            if not self.follows("\\"):
                raise self.fault("a text isn't closed", first)
            parts.append(self.escape())

    def text_in_lines(self, mark):
        first, parts = self.at, []
        self.at += 3
        self.take(LINE_END)
        while True:
            parts.append(self.plain(PLAIN_IN_LINES[mark], self.at).replace("\r\n", "\n"))
            if self.at >= len(self.text):
                raise self.fault("a text isn't closed", first)
            if self.follows("\\"):
                if not self.take(re.compile(r"[ \t]*\r?\n[ \t\r\n]*")):
                    parts.append(self.escape())
                continue
            marks = self.take(re.compile(mark + "{1,5}"))
            if len(marks) >= 3:
                # (up to two marks may stand before the closing ones)
                return "".join(parts) + mark * (len(marks) - 3)
            parts.append(marks)


def close(table):
    """Marks an inline table, and the tables within it that dotted keys made, as closed. They are few: a key has a limit."""
    left = [table]
    while left:
        inner = left.pop()
        inner.made_by = BRACES
        left += [value for value in inner.values() if isinstance(value, Table) and value.made_by == DOTTED]


def read_toml(data):
    """The table of a text in bytes, or a TomlFault."""
    try:
        text = data.decode()
    except UnicodeDecodeError as fault:
        read = data[: fault.start].decode()
        raise TomlFault(read, len(read), "this isn't UTF-8") from None
    return Reader(text).read()
