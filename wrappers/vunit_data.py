"""Lists the files below a project that its benches read, as the words of its simulator declare them by --data=PATTERN.

usage: vunit_data [PATTERN ..]

It prints a line `LIBRARY.BENCH, PATH` for each file of each bench of which a test matches one of the patterns, and then how
many it has listed. It ends with 0. It ends with 1 if a word of the simulator is wrong, a pattern of files matches no file, or a
word --in names no test. Otherwise it ends as vunit_run does, whose list of tests it takes."""

import os

from bench_words import IN, BenchRun, GivenWords, WrongWord
from name_patterns import NamePattern, PathPattern, project_files
from vunit_tool import REFUSED, Test, ToolFault, exported, program, project_words, put, run_tool, tell

TOOL = "vunit_data"
OUTPUT = b"vunit_out"


def declared_patterns(words, tests):
    """The patterns that words of a simulator declare for the runs of these tests, each once; None if they declare nothing, not
    even that a bench reads nothing."""
    found = None
    for test in tests:
        library, bench = test.library.encode(), test.bench[len(test.library) + 1 :].encode()
        data = GivenWords(words, BenchRun(library, bench, [test.case.encode()])).data
        if data is not None:
            found = list(dict.fromkeys([*(found or []), *data]))
    return found


def check_names(words, tests):
    """Raises where a word --in names no test of the project."""
    names = {name.encode() for test in tests for name in (test.bench, test.name)}
    for word in words:
        pattern = NamePattern(word[len(IN) :].partition(b":-")[0])
        if word.startswith(IN) and not any(pattern.matches(name) for name in names):
            raise ToolFault(f"{os.fsdecode(word)} names no test")


def benches_of(tests):
    """The tests of each bench."""
    benches = {}
    for test in tests:
        benches.setdefault(test.bench, []).append(test)
    return benches


def files_of(bench, patterns, files):
    """The files that patterns match, each once, and whether each pattern matches one."""
    found, status = {}, 0
    for pattern in patterns:
        matcher = PathPattern(pattern)
        matched = [path for path in files if matcher.matches(path)]
        found.update(dict.fromkeys(matched))
        if not matched:
            tell(TOOL, f"{bench}: nothing matches {os.fsdecode(pattern)}")
            status = REFUSED
    return list(found), status


def list_data(words):
    run = program(TOOL)
    selected = {test["name"] for test in exported(run, ["--", *words])["tests"]} if words else None
    tests = [Test(test["name"]) for test in exported(run)["tests"]]
    simulator = [word.encode() for word in project_words("simulator")[1:]]
    check_names(simulator, tests)
    declared = {bench: declared_patterns(simulator, own) for bench, own in benches_of(tests).items()
                if selected is None or not selected.isdisjoint(test.name for test in own)}
    files = project_files(b".", OUTPUT) if any(declared.values()) else []
    listed, status = 0, 0
    for bench, patterns in declared.items():
        found, its_status = files_of(bench, patterns or [], files)
        put(b"".join(b"%s, %s\n" % (bench.encode(), path) for path in found))
        listed, status = listed + len(found), status or its_status
    put(b"Listed %d files\n" % listed)
    return status


def work(words):
    try:
        return list_data(words)
    except WrongWord as wrong:
        raise ToolFault(f"vunit.toml: {os.fsdecode(wrong.args[0])}") from None


def main():
    run_tool(TOOL, __doc__, work)
