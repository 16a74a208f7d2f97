"""Finds what a text of vunit_run is about: ranges in files of the project, by the form of each refusal and warning."""

import re

from program_texts import LISTED, placed
from project_texts import ProjectText, csv_line, csv_place
from vhdl_words import Words, as_name, end_of_token

TOML, CSV = b"vunit.toml", b"vunit.csv"
ERROR, WARN, INFORMATION, HINT = 1, 2, 3, 4
FILE = rb"([A-Za-z][A-Za-z0-9_]*), (.+?)"


class Finding:
    """A message at a range of bytes in a file; the range None is its first line. `related` are other paths and places, and `code` is
    what the message is of."""

    def __init__(self, path, place, text, severity=ERROR, related=(), code=None):
        self.path, self.place, self.text, self.severity = path, place, text, severity
        self.related, self.code = list(related), code


def cut_name(name):
    """The parts of a name with dots: an extended identifier in it is one part."""
    return re.findall(rb"\\(?:[^\\]|\\\\)*\\|[^.\\]+", name)


class Places:
    """The places of texts in one state of a project: `read` gives the bytes of a file, and `files` are the project's, if they are
    known."""

    def __init__(self, read, files=()):
        self.read, self.files, self.known = read, list(files), {}
        self.project = TOML if read(TOML) is not None or read(CSV) is None else CSV

    def words(self, library, path):
        if (library, path) not in self.known:
            self.known[library, path] = Words(self.read(path) or b"", library)
        return self.known[library, path]

    def findings(self, text):
        """What a refusal says, each at its place. One whose form isn't known is at the first line of the project file."""
        for form, found in FORMS:
            if match := form.match(text):
                try:
                    return found(self, text, match)
                except (ValueError, LookupError):
                    # (a name of another form: the refusal is worth more than its place)
                    break
        return [Finding(self.project, None, text)]

    def at_offset(self, text, match):
        path, offset = match[2], int(match[3])
        data = self.read(path)
        if data is None or offset > len(data):
            return [Finding(path, None, text)]
        return [Finding(path, (offset, end_of_token(data, offset)), text)]

    def in_project(self, text, place):
        return [Finding(self.project, place, text)]

    def toml(self):
        return ProjectText(self.read(TOML) or b"")

    def no_toml(self, text, _):
        return [Finding(TOML, self.toml().fault(), text)]

    def lacking_key(self, text, match):
        return [Finding(TOML, self.toml().lacking(match[1].decode()), text)]

    def wrong_value(self, text, match):
        return [Finding(TOML, self.toml().key(match[1].decode()), text)]

    def library_name(self, text, wanted, number):
        """A name of a library in the project file: the occurrence `wanted`, from 0 on."""
        if self.project == CSV:
            return self.in_project(text, csv_place(self.read(CSV), 0, lambda library, _: library.lower() == wanted, number))
        return self.in_project(text, self.toml().find(
            ("library", ""), ("name",), lambda name: name.lower().encode() == wanted, number))

    def work_library(self, text, _):
        return self.library_name(text, b"work", 0)

    def library_twice(self, text, match):
        return self.library_name(text, match[1], 1)

    def file_twice(self, text, match):
        return self.in_project(text, self.csv_file(match, 1))

    def csv_file(self, match, number=0):
        data = self.read(CSV) if self.project == CSV else None
        return data and csv_place(data, 1, lambda library, path: (library.lower(), path) == (match[1], match[2]), number)

    def absent_file(self, text, match):
        return self.in_project(text, self.csv_file(match))

    def no_match(self, text, match):
        pattern = match[1].decode("utf-8", "replace")
        return self.in_project(text, self.toml().find(("library", ""), ("files",), lambda value: value == pattern))

    def not_in_project(self, text, match):
        path = match[2].decode("utf-8", "replace")
        return self.in_project(text, self.toml().find(("depends", ""), ("path", "on_path"), lambda value: value == path))

    def bad_line(self, text, match):
        return [Finding(CSV, csv_line(self.read(CSV) or b"", int(match[1])), text)]

    def unit_twice(self, text, match):
        files = (match[2], match[3]), (match[4], match[5])
        places = [(path, self.declared(match[1], library, path, number if files[0] == files[1] else 0))
                  for number, (library, path) in enumerate(files)]
        return [Finding(*place, text, related=[places[1 - at]]) for at, place in enumerate(places)]

    def declared(self, unit, library, path, number):
        """Where a unit is declared, as a refusal names it: `LIBRARY.UNIT`, `LIBRARY.ENTITY(ARCHITECTURE)` or `body LIBRARY.PACKAGE`."""
        words, body = self.words(library, path), unit.startswith(b"body ")
        full, _, architecture = (unit[5:] if body else unit).partition(b"(")
        name = as_name(cut_name(full)[-1])
        if architecture:
            return words.declared(b"architecture", as_name(architecture[:-1]), name, number)
        return words.declared(b"body" if body else b"", name, number=number)

    def no_unit(self, text, match):
        library, unit = cut_name(match[3])[:2]
        return [Finding(match[2], self.words(match[1], match[2]).reference(as_name(library), as_name(unit)), text)]

    def no_architecture(self, text, match):
        library, entity = cut_name(match[4])[:2]
        words = self.words(match[1], match[2])
        return [Finding(match[2], words.architecture(as_name(library), as_name(entity), as_name(match[3])), text)]

    def cycle(self, text, match):
        files = [(found[1], found[2]) for line in match[1].split(b"\n  ") if (found := LISTED.match(line.strip()))]
        places = [(path, self.edge(library, path, files[(at + 1) % len(files)])) for at, (library, path) in enumerate(files)]
        return [Finding(path, place, text, related=[other for at, other in enumerate(places) if at != here])
                for here, (path, place) in enumerate(places)]

    def edge(self, library, path, to):
        """Where a file names a unit of another one first."""
        words = self.words(library, path)
        places = [words.reference(as_name(to[0]), unit) for unit in self.words(*to).units()]
        return min(filter(None, places), default=None)

    def bench(self, text, match):
        library, entity = cut_name(match[1])[:2]
        for file in self.files:
            if file[0] == library and (place := self.words(*file).declared(b"", as_name(entity))):
                return [Finding(file[1], place, text)]
        return [Finding(self.project, None, text)]

    def test_twice(self, text, match):
        """The second call that names the test; without one, in the file of the bench's entity."""
        library, entity = cut_name(match[1])[:2]
        case = match[1][len(library) + len(entity) + 2 :]
        for file in self.files:
            words = self.words(*file)
            if file[0] == library and words.first(b"architecture", None, b"of", as_name(entity), name=1):
                if place := words.case(case, 1):
                    return [Finding(file[1], place, text)]
        return self.bench(text, match)

    def warning(self, text, counts):
        """A warning: one with a place in its text there; else that of a use of a whole library at that use."""
        if place := placed(text):
            return Finding(place.path, self.column(place), place.text, WARN)
        if match := USED_ALL.match(text):
            number = counts[text] = counts.get(text, -1) + 1
            return Finding(match[2], self.words(match[1], match[2]).all_of(match[3], number), text, WARN)
        return Finding(self.project, None, text, WARN)

    def column(self, place, tab=1):
        """The token at a line and a column, in bytes; a compiler's columns may have tabulators that lead to multiples of `tab`."""
        data = self.read(place.path)
        line = csv_line(data, place.line) if data is not None else None
        if line is None:
            return None
        at, column = line[0], 1
        while at < line[1] and column < place.column:
            column = (column - 1) // tab * tab + tab + 1 if data[at] == 9 else column + 1
            at += 1
        return at, min(max(end_of_token(data, at), at), line[1]) if at < line[1] else at


def form(text, found):
    return re.compile(text + rb"\Z", re.DOTALL), found


USED_ALL = re.compile(FILE + rb": use of ([A-Za-z][A-Za-z0-9_]*)\.all gives no dependency\Z", re.DOTALL)
FORMS = [
    form(FILE + rb": (?:unclosed (?:string|extended identifier|comment)|no design unit|design unit not ended) at (\d+)", Places.at_offset),
    form(rb"vunit\.toml isn't TOML", Places.no_toml),
    form(rb"vunit\.toml: no key ([a-z_.]+)", Places.lacking_key),
    form(rb"vunit\.toml: wrong value of ([a-z_.]+)", Places.wrong_value),
    form(rb"a library may not be named work", Places.work_library),
    form(rb"library ([a-z0-9_]+) stands twice", Places.library_twice),
    form(rb"test (.+) stands twice", Places.test_twice),
    form(FILE + rb" stands twice", Places.file_twice),
    form(rb"nothing matches (.*)", Places.no_match),
    form(FILE + rb" isn't in the project", Places.not_in_project),
    form(rb"vunit\.csv: bad line (\d+)", Places.bad_line),
    form(FILE + rb" is absent", Places.absent_file),
    form(rb"(.+?) stands in " + FILE + rb" and " + FILE, Places.unit_twice),
    form(FILE + rb": no unit (.+)", Places.no_unit),
    form(FILE + rb": no architecture (.+) of (.+)", Places.no_architecture),
    form(rb"cycle((?:\n  .+)+)", Places.cycle),
    form(rb"bench (.+) (?:has two architectures|has no architecture|has a bad test name)", Places.bench),
]
