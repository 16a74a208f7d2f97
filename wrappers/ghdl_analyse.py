"""Compiles one VHDL file with GHDL: a compiler of vunit_run, by the compile request of docs/FORMATS.md.

usage: ghdl_analyse [WORD ..] <REQUEST >ARTEFACT

The words go to `ghdl -a`, after --std=08, but --key=WORD, which makes a request another one and nothing else. A relative -P
counts from the present folder. GHDL has to have the code generator mcode, which keeps no objects: its library files name the
sources, and these are read again when they are used. An artefact has the file's own lines of GHDL's library file, the words
that its users need too, and the source without its comments. A changed comment therefore changes no artefact. It ends with 0;
with 1 if the file is refused, or if GHDL crashed over it; with 2 if the input is not a request. It ends with 75, and why on
standard error, without an answer: GHDL could not be started, TMPDIR is missing or full, or GHDL was ended from outside. It ends
with 128 and the number of a signal that ended it. So it does where nobody reads its standard output any more, as if that were
SIGPIPE, and GHDL ends before it.
"""

# Why it is so:
# The program drives no tool: this is a compiler of its own, and ghdl_bench a simulator. Not a driver for each tool in the
# program.
# The artefact omits comments, since a changed comment would recompile all users. With -fpsl comments have a meaning, and
# stay.
# ghdl-llvm and ghdl-gcc are refused by name: an artefact would have to hold an object file, and each bench would be linked
# anew.
# An analysis ended by a signal from outside has no answer; ended by any other signal, GHDL crashed over the file.
# GHDL works in a folder whose files have counted names. So a name in a request becomes no file's name, except for a library's.

import _signal as signal
import sys, zlib

import quick_os as os
from ghdl_keeper import OUTPUT, Limits, NoAnswer, Refused, run_program
from ghdl_library import (ARTEFACT_LIMIT, SOURCE_LIMIT, STANDARDS, UNSEEN, Request, Restored, for_ghdl, is_checksum, unit_of,
                          with_number, write)
from run_data import escaped
from shipped_library import SHIPPED
from vhdl_comments import without_comments

# A word that is passed over, as by ghdl_bench.
KEY = b"--key="
# Signals from outside: by an operator, a limit, or since memory is short. By any other signal it crashed over the file.
FROM_OUTSIDE = {signal.SIGKILL, signal.SIGTERM, signal.SIGINT, signal.SIGHUP, signal.SIGXCPU}
# Limits in bytes: how much of GHDL's output is read, one more than the runner takes, and how much it may print.
SAID_LIMIT, PRINTED = 262_145, Limits(67_108_864)
MISSING_BODY = b"(in vunit.toml, users_depend_on_bodies = true hands over the bodies of packages)\n"
MISSING_UNIT = b"""(where a file of the project has it, these lines in vunit.toml hand it over:
[[depends]]
library = "%s"
path = "%s"
on_library = %s
on_path = "PATH OF THE FILE THAT HAS IT")
"""
# Libraries that come with VUnit. The wrapper has a part of each, or nothing.
OF_VUNIT = {b"vunit_lib", b"osvvm"}
TAKE_VUNIT = b"(it is part of VUnit, and not of the vunit_lib beside ghdl_analyse: `take_vunit FOLDER` copies an installed VUnit)\n"


def read_words(words):
    """The words for GHDL as given, and the standard among them."""
    standard, kept = b"08", []
    for word in map(os.fsencode, words):
        if word.startswith(KEY):
            continue
        if not word.startswith(b"-") or word.startswith((b"--work", b"--PREFIX")):
            raise Refused(b"ghdl_analyse: %s isn't for the project file: it names a file or a library\n" % word)
        if word.startswith(b"--std="):
            standard = word[6:]
            if standard not in STANDARDS:
                raise Refused(b"ghdl_analyse: --std is one of %s\n" % b", ".join(STANDARDS))
        kept.append(word)
    return kept, standard


def hint(said, library, path, used):
    """What mends the project where GHDL misses what the runner didn't hand over."""
    import re

    if b"cannot find package body" in said:
        return MISSING_BODY
    if b': no architecture "' in said:
        return MISSING_UNIT % (library, path, b'"LIBRARY OF THE FILE THAT HAS IT"')
    if missing := re.search(rb': unit "[^"\n]*" not found in library "([a-z0-9_]+)"', said):
        if missing[1] in OF_VUNIT and library != missing[1] and not used.has_library(missing[1]):
            return TAKE_VUNIT
        return MISSING_UNIT % (library, path, b'"%s"' % missing[1])
    return b""


def run(room, words):
    """GHDL's code, and the beginning of what it printed, with what the wrapper says before that."""
    path = os.path.join(room.folder, b"said")
    code, why = room.run(words, path, PRINTED, inside=True)
    if why != OUTPUT and -code in FROM_OUTSIDE:
        raise NoAnswer(b"ghdl_analyse: GHDL was ended by signal %d\n" % -code)
    with open(path, "rb") as file:
        said = file.read(SAID_LIMIT)
    if why == OUTPUT:
        said = b"ghdl_analyse: GHDL was ended, since it printed over %d bytes\n" % PRINTED.output + said
    elif code < 0:
        said = b"ghdl_analyse: GHDL was ended by signal %d\n" % -code + said
    return code, said


def analyse_over_libraries(room, words, used):
    """As `run`, and the libraries that clauses name and of which there is nothing: GHDL gets an empty one each."""
    unseen = set()
    while True:
        code, said = run(room, words)
        if code == 0:
            return code, said, unseen
        import re

        missing = set(re.findall(rb'cannot find resource library "([a-z][a-z0-9_]{0,63})"', said)) - unseen
        if not missing:
            return code, said, unseen
        unseen |= missing
        for library in missing:
            used.add_unseen(library)


def lay_out(room, used, library, source, given, name):
    """Writes what GHDL reads, and gives the words by which it compiles `name`."""
    used.write_libraries(lambda position, _: (b".", b"ghdl_analyse_%d.vhd" % position))
    used.write_unseen()
    used.write_sources(source)
    write(os.path.join(room.folder, name), source)
    words = list(dict.fromkeys([*used.words(), *(for_ghdl(word, room.present) for word in given)]))
    if used.standard == b"08" and library != b"vunit_lib" and not used.has_library(b"vunit_lib"):
        words.append(b"-P" + SHIPPED)
    return [b"-a", b"-P.", b"--std=08", *words, b"-P" + UNSEEN, b"--work=" + library, b"--workdir=.", name]


def with_paths(said, room, paths):
    """What GHDL said, with the user's path for each counted name and without the room."""
    if not said:
        return said
    import re

    named = lambda found: paths[int(found[1])] if int(found[1]) < len(paths) else found[0]
    said = re.sub(rb"ghdl_analyse_(0|[1-9]\d{0,5})\.vhd", named, said)
    return said.replace(room.folder + b"/", b"").replace(room.folder, b".")


def read_analysed(room, objects, name):
    """The checksum of the file and its units, by the library file that GHDL has written."""
    try:
        with open(os.path.join(room.folder, objects), "rb") as file:
            lines = file.read()
    except FileNotFoundError:
        lines = b""
    lines, file = lines.split(b"\n"), b'"%s" "' % name
    for at, line in enumerate(lines):
        checksum, after, time = line[line.find(file) + len(file) :].partition(b'" "')
        if file in line and line.startswith(b"file ") and is_checksum(checksum) and time.lstrip(b"0123456789.") == b'":':
            units = []
            while unit_of(line := lines[(at := at + 1)]):
                units.append(with_number(line, 0))
            if lines[0] == b"v 4":
                return checksum, units
    raise Refused(b"ghdl_analyse: this ghdl writes library files of another form\n")


def analyse(room):
    """The code, the artefact and the warnings."""
    request = Request(b"VRC1")
    library, path, source = request.library(), request.text(), request.text()
    room.make()
    given, standard = read_words(sys.argv[1:])
    used = Restored(room, request, STANDARDS[standard])
    request.end()
    if len(source) > SOURCE_LIMIT:
        raise Refused(b"ghdl_analyse: the file is too long\n")
    if not any(word.startswith(b"-fpsl") for word in given):
        # (before VHDL-2008 GHDL refuses block comments)
        source = without_comments(source, keeps_blocks=used.standard in (b"87", b"93"))
    name, objects = b"ghdl_analyse_%d.vhd" % len(used.files), b"%s-obj%s.cf" % (library, used.standard)
    words = lay_out(room, used, library, source, given, name)
    there = {*os.listdir(room.folder), b"said", objects, UNSEEN}
    code, said, unseen = analyse_over_libraries(room, words, used)
    said = with_paths(said, room, [*(built.path for built in used.files), path])
    room.see_space(code != 0)
    if code != 0:
        raise Refused((said or b"ghdl_analyse: ghdl ended with %d\n" % code) + hint(said, library, path, used))
    if not there.issuperset(os.listdir(room.folder)):
        import re

        generator = re.search(rb"(\S.*) code generator", run(room, [b"--version"])[1])
        raise Refused(b"ghdl_analyse: mcode is supported, and not %s\n" % (generator[1] if generator else b"this ghdl"))
    checksum, units = read_analysed(room, objects, name)
    needed = [b" " + escaped(word) for word in given if not word.startswith((b"--std=", b"-W"))]
    needed += [b" +" + library for library in sorted(unseen)]
    head = b"".join([b"ghdl_analyse 2 %s %s" % (standard, checksum), *needed])
    artefact = b"\n".join([head, *units, b"", zlib.compress(source, 9)])
    if len(artefact) > ARTEFACT_LIMIT:
        raise Refused(b"ghdl_analyse: the file is too long\n")
    return 0, artefact, said


# What a program does that has the request already.
WORK = analyse


def main():
    if sys.argv[1:2] == ["--cache-key"]:
        import ghdl_key

        ghdl_key.main("ghdl_analyse", sys.argv[2:])
    run_program("ghdl_analyse", WORK)
