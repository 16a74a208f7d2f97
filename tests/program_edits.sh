#!/bin/sh
# What is compiled again after edits of a project, run by run over one store: exactly the files without a current record. Each
# file depends on all before it: by the lines of a vunit.csv, or by the pairs of a vunit.toml, where some texts are refused.
. "$TOP/tests/support/needs.sh"
needs python3 tomllib
PYTHONPATH=$TOP/tests/support exec python3 -B - <<'END'
import json, os

from store_reader import built_over, graph_of, records_of
from trial import build_text, end, environment, fail, package, project, run, started_in, write

COMPILER = ["sh", os.path.join(os.environ["TOP"], "tests", "support", "analysing.sh")]


def part(word):
    """The library and the path that a word of a row names, and the text."""
    library, word = ("other", word[1:]) if word.startswith("O") else ("lib", word)
    letter, number = word[0].lower(), word[1:].rstrip("'")
    notes = f"-- child: {'refuse bad' if number in ('X', 'Y') else 'note'} {number}\n" if number else ""
    return library, letter + ".vhd", package(letter) + "-- a comment\n" * word.count("'") + notes


def listed(parts):
    return {"vunit.csv": "".join(f"{library},{path}\n" for library, path, _ in parts)}


def paired(parts):
    """The same files, each of which is paired with the one before it."""
    tables = {}
    for library, path, _ in parts:
        tables.setdefault(library, []).append(path)
    text = f"compiler = {json.dumps(COMPILER)}\n" + ("" if tables else "library = []\n")
    for library, paths in tables.items():
        text += f"[[library]]\nname = '{library}'\nfiles = {json.dumps(paths)}\n"
    for (on_library, on_path, _), (library, path, _) in zip(parts, parts[1:]):
        text += f"[[depends]]\nlibrary = '{library}'\npath = '{path}'\non_library = '{on_library}'\non_path = '{on_path}'\n"
    return {"vunit.toml": text}


def said_of(parts, positions, last):
    """What a run says that compiles the files at these positions, and its status."""
    names = [(parts[at][0].encode(), parts[at][1].encode()) for at in positions]
    if last == "done":
        return 0, build_text(names)
    text = build_text(names[:-1]).removesuffix("Compile passed\n") if names[:-1] else ""
    library, path, source = parts[positions[-1]]
    return 1, f"{text}Compiling into {library}: {path} failed\n{source.split('refuse ')[1]}Compile failed\n"


def follow(at, row, projected):
    """A run of a row."""
    files, _, rest = row.partition(">")
    *positions, last = rest.split()
    parts, positions = [part(word) for word in files.split()], [int(word) for word in positions]
    for name in os.listdir("project"):
        if name != "vunit_out":
            os.remove(os.path.join("project", name))
    write("project", projected(parts))
    write("project", {path: text for _, path, text in parts})
    status, text = said_of(parts, positions, last)
    ran = run("project", "--compile", env=environment("requests"))
    if ran != (status, text.encode(), b""):
        fail(f"line {at}: {row}", f"it is {ran}\nand not {(status, text)}")
    names = [(parts[at][0].encode(), parts[at][1].encode()) for at in positions]
    if projected is paired and started_in("requests") != names:
        fail(f"line {at}: {row}", f"it started {started_in('requests')}")
    stale, _ = built_over(graph_of("project"), records_of("project"), lambda request: None)
    if last == "done" and stale:
        fail(f"line {at}: {row}", f"without a current record are the positions {stale}")


def follow_all(projected, passed=None):
    """The sequences of the table, but for those that have a word that is passed over."""
    with open(os.path.join(os.environ["TOP"], "tests", "support", "edit_rows.txt")) as file:
        lines = list(enumerate(file.read().split("\n"), 1))
    count = 0
    sequence = []
    for at, line in lines + [(0, "")]:
        if line and not line.startswith("#"):
            sequence.append((at, line))
        elif sequence and not line:
            if not any(passed in row.split() for _, row in sequence):
                project("project", {})
                for number, row in sequence:
                    follow(number, row, projected)
                count += len(sequence)
            sequence = []
    return count


# (what a compiler of a vunit.csv was asked isn't kept)
counts = follow_all(listed), follow_all(paired)
if min(counts) < 100:
    fail("the table", f"it has only {counts} runs")
end()
END
