"""Reads the table of vunit_configs: the configurations of benches, in TOML.

    [[configuration]]
    bench = "LIBRARY.BENCH"
    name = "NAME"                   `{GENERIC}` in it stands for the value of a generic
    case = "PATTERN"                the cases that it is for: all where it is missing
    generics = { GENERIC = VALUE }  a text, a whole number, a truth value, a number with a point, or an array of these: then it is
                                    a configuration for each of its values, and of several arrays for each choice
    before = "COMMAND"              or an array of commands
    after = "COMMAND"
    words = ["WORD"]                further words of the simulator
"""

import difflib, itertools, re

from bench_words import AFTER, BEFORE, CONFIGURATION, BenchRun, GivenWords, WrongWord
from name_patterns import NamePattern
from toml_text import Table, TomlFault, read_toml
from vunit_tool import OUTSIDE, ToolFault

KEYS = ("bench", "name", "case", "generics", "before", "after", "words")
TABLE_LIMIT, CONFIGURATION_LIMIT, WORD_LIMIT = 4_194_304, 65_536, 131_071


class Configuration:
    """A configuration of a bench: its name, which cases it is for, and its words for the simulator, in bytes."""

    def __init__(self, bench, name, case, words, line):
        self.bench, self.name, self.case, self.words, self.line = bench, name, case, words, line
        self.pattern = None if case is None else NamePattern(case.encode())

    def is_for(self, case):
        return self.pattern is None or self.pattern.matches(case.encode())


class TableReader:
    """Reads one table, whose name is that in messages."""

    def __init__(self, path):
        self.path = path

    def fault(self, line, text):
        return ToolFault(f"{self.path}:{line}: {text}")

    def read(self):
        try:
            with open(self.path, "rb") as file:
                data = file.read(TABLE_LIMIT + 1)
        except OSError as fault:
            raise ToolFault(f"{self.path}: {fault.strerror}", OUTSIDE) from None
        if len(data) > TABLE_LIMIT:
            raise ToolFault(f"{self.path}: the table has over {TABLE_LIMIT} bytes")
        try:
            top = read_toml(data)
        except TomlFault as fault:
            raise ToolFault(f"{self.path}:{fault}") from None
        self.check_keys(top, ("configuration",))
        rows = top.get("configuration", [])
        if not (isinstance(rows, list) and all(isinstance(row, Table) for row in rows)):
            raise self.fault(top.lines["configuration"], "configuration has to be [[configuration]] tables")
        found = []
        for row in rows:
            found += self.expanded(row, CONFIGURATION_LIMIT - len(found))
        if not found:
            raise ToolFault(f"{self.path}: the table has no [[configuration]]")
        return found

    def check_keys(self, table, known):
        for key, line in table.lines.items():
            if key not in known:
                near = difflib.get_close_matches(key, known, 1)
                raise self.fault(line, f"unknown key {key}" + (f" (did you mean {near[0]}?)" if near else ""))

    def text(self, row, key, default=None):
        """The text of a key, in one line."""
        value = row.get(key, default)
        if value is None and key not in row and key != "case":
            raise self.fault(row.line, f"a configuration has no {key}")
        if value is not None and not (isinstance(value, str) and value and value == plain(value)):
            raise self.fault(row.lines[key], f"wrong value of {key}: it has to be a text without control characters")
        return value

    def texts(self, row, key):
        """The texts of a key: one, an array of them, or none."""
        value = row.get(key, [])
        values = [value] if isinstance(value, str) and key != "words" else value
        if not (isinstance(values, list) and all(isinstance(one, str) and one and "\0" not in one for one in values)):
            raise self.fault(row.lines[key], f"wrong value of {key}: it has to be an array of texts")
        return values

    def expanded(self, row, room):
        """The configurations of a row of the table, up to a limit."""
        self.check_keys(row, KEYS)
        bench, name, case = self.text(row, "bench"), self.text(row, "name"), self.text(row, "case")
        generics = row.get("generics", {})
        if not isinstance(generics, dict):
            raise self.fault(row.lines["generics"], "wrong value of generics: it has to be a table")
        choices = [[(key, self.value(generics, key, one)) for one in (value if isinstance(value, list) else [value])]
                   for key, value in generics.items()]
        count = 1
        for choice in choices:
            count *= len(choice)
        if count > room:
            raise self.fault(row.line, f"there are over {CONFIGURATION_LIMIT} configurations")
        behind = [BEFORE.decode() + command for command in self.texts(row, "before")]
        behind += [AFTER.decode() + command for command in self.texts(row, "after")] + self.texts(row, "words")
        return [self.configuration(row, bench, name, case, chosen, behind) for chosen in itertools.product(*choices)]

    def configuration(self, row, bench, name, case, generics, behind):
        values = dict(generics)
        name = re.sub(r"\{([^{}]+)\}", lambda found: values.get(found[1], found[0]), name)
        if name != plain(name):
            raise self.fault(row.line, "a value in the name has a control character")
        words = [f"-g{generic}={value}" for generic, value in generics] + behind
        words = [word.encode() for word in [CONFIGURATION.decode() + name, *words]]
        if longest := max((len(word) for word in words if len(word) > WORD_LIMIT), default=0):
            raise self.fault(row.line, f"a word of {longest} bytes is more than a command takes")
        try:
            GivenWords(words, BenchRun(b"", b"", []))
        except WrongWord as wrong:
            raise self.fault(row.line, wrong.args[0].decode()) from None
        return Configuration(bench, name, case, words, row.line)

    def value(self, generics, key, value):
        """The text of a value for a generic."""
        if isinstance(value, bool):
            return "true" if value else "false"
        if isinstance(value, float):
            mantissa, _, exponent = repr(value).partition("e")
            if mantissa.strip("-") not in ("inf", "nan"):
                # (VHDL wants a point)
                return mantissa + ("" if "." in mantissa else ".0") + (f"e{exponent}" if exponent else "")
        elif isinstance(value, (int, str)) and "\0" not in str(value):
            return str(value)
        raise self.fault(generics.lines[key], f"wrong value of {key}: it has to be a text, a number or a truth value")


def plain(text):
    """A text without control characters, which names of tests cannot have."""
    return "".join(letter for letter in text if letter >= " " and letter != "\x7f")
