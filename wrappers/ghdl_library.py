"""What ghdl_analyse and ghdl_bench share: requests, artefacts, and GHDL's library files over them.

An artefact is the lines that GHDL's library file has of one file, what its users need besides, and its source:

    ghdl_analyse 2 STANDARD CHECKSUM WORD .. +LIBRARY ..
      entity e at 1( 0) + 0 on 0;
    (an empty line, and the source, compressed)

The words are those of GHDL without which the source can't be read again. The libraries are named by clauses of the file, and
had no units when it was compiled. GHDL wants a library file nevertheless.

A start of GHDL takes some 20 ms, and so would the module re: what every start does is written without it.
"""

# GHDL's library files are text, and with the code generator mcode there are no other files. The lines of an artefact have 0 as the number of
# a unit, and no time. In a library file, numbers are counted from 11. The time is the last possible one, since GHDL refuses a file older than
# its dependencies.
#
# Library files are written whole. Of the sources only the reachable ones are written: a unit of theirs is named in the file, or in such a
# source. Too few would be an error of GHDL, and never a pass.

import io, sys, zlib

import quick_os as os
from ghdl_keeper import Refused
from run_data import HEX, PLAIN, escaped, unescaped

ARTEFACT_LIMIT, SOURCE_LIMIT = 262_144, 4_194_304
# Bytes of compressed sources that wait in memory.
IN_MEMORY = 4_194_304
# What a byte is in a word, without regard to case; a blank for bytes outside words.
IN_WORDS = bytes(ord(letter.lower()) if letter.isalnum() or letter == "_" else 32 for letter in map(chr, range(256)))
# What needs no escape in the name of a file.
IN_NAMES = bytes(range(0x80))
# The folder of libraries of which there is nothing. It comes last of all folders with libraries, so it hides none.
UNSEEN = b"unseen"
# The standards, each after the ones that it contains, and their part of the names of library files.
STANDARDS = {b"87": b"87", b"93": b"93", b"93c": b"93", b"00": b"93", b"02": b"93", b"08": b"08", b"19": b"19"}


def is_library(name):
    return len(name) <= 64 and name[:1].isalpha() and name.replace(b"_", b"0").isalnum()


def is_checksum(text):
    return len(text) == 40 and not text.strip(HEX)


def unit_of(line, number=None):
    """Where the number of a unit begins and ends in its line of a library file, `  KIND NAME at LINE( OFFSET) + COLUMN on
    NUMBER;`. Some have ` body` after the number. The number is the unit's place in the order of analysis, which is 0 in an
    artefact. None if the line is not a unit's, or has another number than the given one."""
    end = line[: -len(b" body;")] if line.endswith(b" body;") else line[:-1]
    head, on, found = end.rpartition(b" on ")
    head, plus, column = head.rpartition(b" + ")
    head, at, place = head.rpartition(b" at ")
    row, bracket, offset = place[:-1].partition(b"(")
    if (line.endswith(b";") and head.startswith(b"  ") and b"a" <= head[2:3] <= b"z" and found.isdigit() and column.isdigit()
            and row.isdigit() and offset.lstrip(b" ").isdigit() and place.endswith(b")") and number in (None, found)):
        return len(end) - len(found), len(end)
    return None


def with_number(line, number):
    begin, end = unit_of(line)
    return b"%s%d%s" % (line[:begin], number, line[end:])


def name_end(text):
    """Where the name ends that a text begins with: an extended one has its mark twice inside."""
    if not text.startswith(b"\\"):
        return text.find(b" ")
    at = 1
    while (at := text.find(b"\\", at)) >= 0 and text[at + 1 : at + 2] == b"\\":
        at += 2
    return at + 1


def name_of(unit):
    """The name by which other files reach a unit: of an architecture that of its entity."""
    if unit.startswith(b"  architecture "):
        rest = unit[len(b"  architecture ") :]
        rest = rest[name_end(rest) + len(b" of ") :]
    elif unit.startswith(b"  package body "):
        rest = unit[len(b"  package body ") :]
    else:
        rest = unit[2:].partition(b" ")[2]
    return rest[: name_end(rest)]


ENTITY = b"  entity "


def entities_of(units):
    """The names of the entities among units, and where their design units begin in the source."""
    for unit in units:
        if unit.startswith(ENTITY):
            head, _, place = unit.rpartition(b" at ")
            offset, _, column = place.partition(b"(")[2].partition(b") + ")
            yield head[len(ENTITY) :], int(offset) + int(column.partition(b" ")[0])


class Request:
    """Standard input, read part by part."""

    def __init__(self, mark):
        self.input = sys.stdin.buffer
        if self.bytes(4) != mark:
            raise Refused(b"bad request\n", 2)

    def bytes(self, count):
        taken = self.input.read(count)
        if len(taken) != count:
            raise Refused(b"bad request\n", 2)
        return taken

    def number(self):
        return int.from_bytes(self.bytes(4), "little")

    def text(self):
        return self.bytes(self.number())

    def library(self):
        name = self.text()
        if not is_library(name):
            raise Refused(b"bad request\n", 2)
        return name.lower()

    def path(self):
        path = self.text()
        if not path or b"\0" in path or any(part in (b"", b".", b"..") for part in path.split(b"/")):
            raise Refused(b"bad request\n", 2)
        return path

    def end(self):
        if self.input.read(1):
            raise Refused(b"bad request\n", 2)


class Built:
    """A file that was compiled: what its artefact says of it, and where its compressed source is in the spool."""

    def __init__(self, program, library, path, artefact, offset):
        self.library, self.path, self.name = library, path, None
        if not artefact.startswith(b"ghdl_analyse 2 "):
            raise Refused(self.refusal(program, by_number(artefact)))
        head, source = parts_of(artefact)
        if not head:
            raise Refused(self.refusal(program, OTHER))
        self.standard, self.checksum, *words = head[0].split(b" ")[2:]
        self.units = head[1:]
        self.words = [unescaped(word) for word in words if not word.startswith(b"+")]
        self.unseen = [word[1:] for word in words if word.startswith(b"+") and is_library(word[1:])]
        self.offset, self.source = offset, source
        self.length = len(self.source)

    def refusal(self, program, why):
        return b"%s: %s, %s: %s\n" % (program, self.library, self.path, why)


OTHER = b"made by another compiler, or with another --std"


def parts_of(artefact):
    """The lines of the head of an artefact of today, the first and those of units, and its source; no lines if it is not
    one."""
    lines, at = [], 0
    while (end := artefact.find(b"\n", at)) > at:
        lines.append(artefact[at:end])
        at = end + 1
    first = lines[0].split(b" ") if lines else []
    is_head = (end == at and len(first) >= 4 and first[:2] == [b"ghdl_analyse", b"2"] and first[2] in STANDARDS
               and is_checksum(first[3]) and all(word and not word.translate(None, PLAIN + b"=") for word in first[4:])
               and all(unit_of(line, b"0") for line in lines[1:]))
    return (lines, artefact[end + 1 :]) if is_head else ([], b"")


def by_number(artefact):
    number, blank, _ = artefact[len(b"ghdl_analyse ") :].partition(b" ")
    is_ours = artefact.startswith(b"ghdl_analyse ") and number.isdigit() and blank
    return b"made by an earlier ghdl_analyse: run once with --clean" if is_ours else OTHER


class Restored:
    """The files of a request that were compiled before, read one by one; their sources wait in memory, and many of them in a file
    of the present room."""

    def __init__(self, room, request, standard=None):
        """`standard` is its part of the names of library files; None lets the first file decide."""
        self.room, self.files, self.standard = room, [], standard
        # Where libraries and sources go.
        self.folder = room.folder
        self.spool, self.folders, offset = io.BytesIO(), set(), 0
        for _ in range(request.number()):
            built = Built(room.program, request.library(), request.path(), request.text(), offset)
            named = STANDARDS.get(built.standard)
            self.standard = self.standard or named
            if named is None or named != self.standard:
                raise Refused(built.refusal(room.program, OTHER))
            self.spool.write(built.source)
            if offset <= IN_MEMORY < offset + built.length:
                self.move_spool()
            offset += built.length
            built.source = None
            self.files.append(built)

    def move_spool(self):
        held = self.spool.getbuffer()
        self.spool = open(os.path.join(self.room.folder, b"spool"), "x+b")
        self.spool.write(held)

    def words(self):
        """The words that these files need wherever they are used, each once; a relative -P counts from the present folder."""
        return list(dict.fromkeys(for_ghdl(word, self.room.present) for built in self.files for word in built.words))

    def write_unseen(self):
        """Makes the libraries of which there is nothing, and which these files name, in a folder of their own."""
        for library in {library for built in self.files for library in built.unseen}:
            self.add_unseen(library)

    def add_unseen(self, library):
        self.write_in(os.path.join(self.folder, UNSEEN), b"%s-obj%s.cf" % (library, self.standard), b"v 4\n")

    def write_in(self, folder, name, text):
        if folder != self.folder and folder not in self.folders:
            os.makedirs(folder, exist_ok=True)
            self.folders.add(folder)
        write(os.path.join(folder, name), text)

    def latest_standard(self):
        given = {built.standard for built in self.files}
        return [standard for standard in STANDARDS if standard in given][-1] if given else b"08"

    def has_library(self, library):
        return any(built.library == library for built in self.files)

    def entity(self, library, name):
        """The source that has an entity, and where its design unit begins; an empty one where no file has it."""
        for built in self.files:
            for found, place in entities_of(built.units) if built.library == library else ():
                if found == name:
                    return self.source(built), place
        return b"", 0

    def source(self, built):
        self.spool.seek(built.offset)
        inflater = zlib.decompressobj()
        try:
            source = inflater.decompress(self.spool.read(built.length), SOURCE_LIMIT)
        except zlib.error:
            source = b""
        if not inflater.eof or inflater.unused_data:
            raise Refused(built.refusal(self.room.program, OTHER))
        return source

    def write_libraries(self, place):
        """Writes GHDL's library file of each library. `place` gives folder and name of a file's source, by its position."""
        libraries, number = {}, 10
        for position, built in enumerate(self.files):
            folder, built.name = place(position, built)
            lines = libraries.setdefault(built.library, [b"v 4\n"])
            # (a file may not be older than what it uses; what GHDL brings has the time of its building)
            quoted = tuple(name.replace(b'"', b'""') for name in (folder, built.name))
            lines.append(b'file %s "%s" "99991231235959.000":\n' % (
                (b'"%s" "%s"' if folder != b"." else b'%s "%s"') % quoted, built.checksum))
            for number, unit in enumerate(built.units, number + 1):
                lines.append(with_number(unit, number) + b"\n")
            built.name = os.path.join(folder, built.name)
        for library, lines in libraries.items():
            write(os.path.join(self.folder, b"%s-obj%s.cf" % (library, self.standard)), b"".join(lines))

    def write_sources(self, *texts, watched=frozenset()):
        """Writes the sources that these texts may reach: those with a unit that is named in one of them, or in such a source. Gives
        back which of the words that are watched these sources have.

        GHDL reads no other, and a library of many files isn't unpacked for each of its benches."""
        plain, extended, found = {}, {}, set()
        for built in self.files:
            for name in map(name_of, built.units):
                if name.startswith(b"\\"):
                    extended.setdefault(name, []).append(built)
                else:
                    plain.setdefault(name.translate(IN_WORDS), []).append(built)
        left, written = list(texts), set()
        while left:
            text = left.pop()
            words = set(text.translate(IN_WORDS).split())
            found |= words & watched
            names = words & plain.keys()
            reached = [built for name in names for built in plain.pop(name)]
            for name in [name for name in extended if name in text]:
                reached += extended.pop(name)
            for built in reached:
                if built.offset not in written:
                    written.add(built.offset)
                    left.append(source := self.source(built))
                    self.write_in(*os.path.split(os.path.join(self.folder, built.name.removeprefix(b"./"))), source)
        return found


def as_named(path):
    """A path as GHDL names it: its library files hold no bytes from 128 on."""
    return escaped(path, IN_NAMES)


def for_ghdl(word, present):
    return b"-P" + os.path.join(present, word[2:]) if word.startswith(b"-P") else word


def write(name, text):
    """Makes a file. (What `open` gives would ask four things of it, and a start may make a thousand.)"""
    file = os.open(name, os.O_WRONLY | os.O_CREAT | os.O_EXCL | os.O_CLOEXEC, 0o666)
    try:
        while text:
            text = text[os.write(file, text) :]
    finally:
        os.close(file)
