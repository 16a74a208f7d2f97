"""Finds keys and values in a `vunit.toml`, and lines of a `vunit.csv`. A text that is not TOML is taken up to its fault."""

import re, tomllib

PIECE = re.compile(r"""
    (?P<comment>\#[^\n]*)
  | (?P<string>\"\"\"(?:[^\\]|\\.)*?\"{3,5}|'''.*?'{3,5}|"(?:[^"\\\n]|\\.)*"|'[^'\n]*')
  | (?P<array>(?m:^)[ \t]*\[\[[^\]\n]*\]\])
  | (?P<header>(?m:^)[ \t]*\[[^\[\]\n]*\](?=[ \t]*(?:\#|\r?\n|\Z)))
  | (?P<bare>[A-Za-z0-9_-]+)
  | (?P<other>[^\s])
""", re.VERBOSE | re.DOTALL)
TEXTS = {"name", "library", "path", "on_library", "on_path"}
LISTS = {"compiler", "simulator", "external", "files", "options"}
LIBRARY = re.compile(r"[A-Za-z][A-Za-z0-9_]{0,63}\Z")
WORD_LIMIT, WORDS_LIMIT = 1024, 32


def string_value(written):
    try:
        return tomllib.loads(f"x = {written}")["x"]
    except tomllib.TOMLDecodeError:
        return None


class Entry:
    """A key with its strings: the table that it is in, the number of that among those of its name, and offsets in letters."""

    def __init__(self, table, number, key, start, end):
        self.table, self.number, self.key, self.start, self.end = table, number, key, start, end
        self.strings = []


class ProjectText:
    """The keys of a text, in order, and the headers of its tables."""

    def __init__(self, data):
        self.letters = data.decode("utf-8", "replace")
        self.entries, self.headers, self.value_end = [], {}, {}
        table, depth, before = "", 0, None
        for match in PIECE.finditer(self.letters):
            kind, written = match.lastgroup, match[0]
            if kind in ("array", "header") and depth == 0:
                table = written.strip().strip("[]").strip().strip("\"'")
                self.headers.setdefault(table, []).append((match.end() - len(written.lstrip()), match.end()))
                before = None
                continue
            if written == "=" and before:
                start, end, name = before
                key = name.rpartition(".")[2].strip().strip("\"'")
                self.entries.append(Entry(table, max(0, len(self.headers.get(table, [])) - 1), key, start, end))
                before = None
            elif kind == "string" and not self.is_key(match.end()):
                if self.entries:
                    self.entries[-1].strings.append((match.start(), match.end(), string_value(written)))
            elif kind in ("bare", "string"):
                before = (match.start(), match.end(), written)
            depth = max(0, depth + (written in "[{") - (written in "]}")) if kind == "other" else depth

    def is_key(self, end):
        return re.compile(r"[ \t]*=").match(self.letters, end) is not None

    def bytes_at(self, place):
        """A place in bytes."""
        if place is None:
            return None
        start, end = (len(self.letters[:at].encode("utf-8", "replace")) for at in place)
        return start, end

    def find(self, tables, keys, value, number=0):
        """A string with a value, which a function knows, at one of these keys: which of them, from 0 on."""
        found = [(start, end) for entry in self.entries if entry.table in tables and entry.key in keys
                 for start, end, text in entry.strings if text is not None and value(text)]
        return self.bytes_at(found[number]) if number < len(found) else None

    def entry(self, table, key, number=None):
        return next((entry for entry in self.entries if entry.key == key and entry.table == table
                     and number in (None, entry.number)), None)

    def key(self, name):
        """Where the value of a key is wrong: the key in the first table in which it is so. `name` is `TABLE.KEY` or `KEY`."""
        table, _, key = name.rpartition(".")
        number = next((at for at, value in enumerate(self.values(table, key)) if value is not None and not is_good(key, value)), None)
        entry = self.entry(table, key, number) or self.entry(table, key)
        if entry:
            return self.bytes_at((entry.start, entry.end))
        return self.bytes_at(self.headers[key][0]) if key in self.headers else None

    def lacking(self, name):
        """The header of the first table that lacks a key."""
        table, _, key = name.rpartition(".")
        number = next((at for at, value in enumerate(self.values(table, key)) if value is None), None)
        headers = self.headers.get(table, [])
        return self.bytes_at(headers[number]) if number is not None and number < len(headers) else None

    def values(self, table, key):
        """The value of a key in each table of a name, None where it is missing."""
        try:
            project = tomllib.loads(self.letters)
        except (tomllib.TOMLDecodeError, RecursionError):
            return []
        tables = project.get(table, []) if table else [project]
        return [one.get(key) for one in tables if isinstance(one, dict)] if isinstance(tables, list) else []

    def fault(self):
        """Where the text stops being TOML, to the end of that line."""
        try:
            tomllib.loads(self.letters)
        except tomllib.TOMLDecodeError as fault:
            if found := re.search(r"at line (\d+), column (\d+)", str(fault)):
                return self.to_line_end(int(found[1]), int(found[2]))
            return self.bytes_at((len(self.letters), len(self.letters)))
        except RecursionError:
            pass
        return None

    def to_line_end(self, line, column):
        # (tomllib takes CR LF for LF, which moves no line and no column)
        lines = self.letters.split("\n")
        start = sum(len(text) + 1 for text in lines[: line - 1]) + column - 1
        end = start + len(lines[line - 1][column - 1 :].rstrip("\r")) if line <= len(lines) else start
        return self.bytes_at((start, max(start, end)))


def is_path(text):
    parts = text.split("/")
    return 1 <= len(text.encode()) <= WORD_LIMIT and text.isprintable() and not {"", ".", ".."} & set(parts)


def is_good(key, value):
    """Whether a key may have a value."""
    if key in TEXTS:
        return isinstance(value, str) and (is_path(value) if key in ("path", "on_path") else LIBRARY.match(value) is not None)
    if key in LISTS:
        texts = isinstance(value, list) and all(isinstance(text, str) for text in value)
        if key in ("compiler", "simulator", "options"):
            return texts and (len(value) > 0 or key == "options") and len(value) <= WORDS_LIMIT and all(
                1 <= len(text.encode()) <= WORD_LIMIT for text in value)
        return texts and (key != "external" or all(LIBRARY.match(text) for text in value))
    if key == "users_depend_on_bodies":
        return isinstance(value, bool)
    return key not in ("library", "depends") or isinstance(value, list) and all(isinstance(one, dict) for one in value)


def csv_line(data, number):
    """Where a line is, by its number from 1 on, without its end."""
    lines = data.split(b"\n")
    if not 1 <= number <= len(lines):
        return None
    start = sum(len(line) + 1 for line in lines[: number - 1])
    return start, start + len(lines[number - 1].rstrip(b"\r"))


def csv_place(data, column, wanted, number=0):
    """The library (column 0) or the path (1) of a line in which both are as a function wants: which of these lines, from 0 on."""
    start = 0
    for line in data.split(b"\n"):
        parts = line.split(b",")
        if len(parts) == 2 and wanted(*(part.strip(b" \t\r") for part in parts)):
            if number == 0:
                text = parts[column]
                at = start + (len(parts[0]) + 1 if column else 0) + len(text) - len(text.lstrip(b" \t"))
                return at, at + len(text.strip(b" \t\r"))
            number -= 1
        start += len(line) + 1
    return None
