"""Tests in the cache: what a run reads beside its request, which of its files are kept, and how they are put back."""

import os, stat, time

from bench_words import BenchRun, GivenWords, WrongWord
from run_data import NAME, PASSED, RunData, verdicts_of, write_data

# The files of a run that a simulator leaves; of a run with others nothing is kept, unless OVER_CACHE_FILES is 1.
LOG, USUAL = b"output.txt", {b"output.txt", b"before.txt", b"after.txt", NAME}
MARK = b"(from the cache)\n"
RUN_ID = b"VUNIT_RUN_ID"
# Words and libraries of one invocation: who says these wants the simulation.
FOR_ONE_RUN = (b"GHDL_BENCH_WORDS", b"GHDL_BENCH_KEEP")
# Bytes of declared files, and of the files of a run, from which on nothing is kept.
DECLARED_LIMIT, FILES_LIMIT = 536_870_912, 67_108_864
# What stands between the words of a shell's command.
BETWEEN = bytes(32 if byte in b" \t\n'\"`;|&<>(){}=$\\" else byte for byte in range(256))


class NotDeclared(Exception):
    """The words don't say what the run reads, or nothing is to be looked up."""


def read_whole(path):
    with open(path, "rb") as file:
        return file.read(DECLARED_LIMIT + 1)


def matched_by(patterns):
    """The files that patterns declare, each once, in order."""
    from name_patterns import PathPattern, project_files

    found, files = {}, None
    for pattern in patterns:
        if not any(byte in pattern for byte in b"*?["):
            found.update({pattern: None} if os.path.isfile(pattern) else {})
            continue
        if files is None:
            files = project_files(b".", b"vunit_out")
        matcher = PathPattern(pattern)
        found.update((path, None) for path in files if matcher.matches(path))
    return list(found)


def named_in(commands):
    """The files that hooks name."""
    words = [word for command in commands for word in command.translate(BETWEEN).split()]
    return [word for word in dict.fromkeys(words) if os.path.isfile(word)]


class CachedRun:
    """One run of a bench. What it reads becomes part of the outline of its request."""

    def __init__(self, outline, words):
        library, bench, self.cases, self.results, _ = outline.names
        self.folder = os.path.dirname(self.results)
        if any(os.environb.get(name) for name in FOR_ONE_RUN) or not self.folder:
            raise NotDeclared()
        try:
            given = GivenWords(words, BenchRun(library, bench, self.cases, self.folder))
        except WrongWord:
            # (the simulator says so)
            raise NotDeclared() from None
        if given.data is None:
            raise NotDeclared()
        self.prefix = b"" if given.configuration is None else given.configuration + b"."
        self.patterns, self.commands = given.data, [*given.before, *given.after]
        self.read = self.read_now()
        outline.add_files(self.read)

    def read_now(self):
        """Paths and bytes of all that the run is said to read."""
        found, left = [], DECLARED_LIMIT
        for path in dict.fromkeys([*matched_by(self.patterns), *named_in(self.commands)]):
            found.append((path, read_whole(path)))
            left -= len(found[-1][1])
            if left < 0:
                raise NotDeclared()
        return found

    def stands(self):
        try:
            return self.read_now() == self.read
        except (OSError, NotDeclared):
            return False

    # The kept files.

    def files(self):
        """Paths and bytes of the files of a run that has passed, in one list; None where nothing is kept of it."""
        if any(verdict != PASSED for _, verdict in verdicts_of(self.cases, self.results, 0)):
            return None
        found, left = [], FILES_LIMIT
        try:
            for path in self.paths():
                found += [path, b"" if path.endswith(b"/") else read_whole(os.path.join(self.folder, path))]
                left -= len(found[-1])
                if left < 0:
                    return None
        except (OSError, ValueError):
            return None
        return found

    def paths(self):
        """The paths in the folder of the run, with a slash behind those of folders."""
        usual, folders, has_all = {*USUAL, os.path.basename(self.results)}, [b""], os.environ.get("OVER_CACHE_FILES") == "1"
        for inside in folders:
            for name in sorted(os.listdir(os.path.join(self.folder, inside))):
                path = os.path.join(inside, name)
                mode = os.lstat(os.path.join(self.folder, path)).st_mode
                if path not in usual and not has_all or not (stat.S_ISREG(mode) or stat.S_ISDIR(mode)):
                    raise ValueError("another file")
                if stat.S_ISDIR(mode):
                    path += b"/"
                    folders.append(path)
                yield path

    # What is put back.

    def restore(self, values):
        """Puts the kept files into the folder of the run, the results last."""
        from ghdl_bench import empty_folder

        files = dict(zip(values[::2], values[1::2]))
        for path in files:
            if not path or path.startswith(b"/") or any(part in (b"..", b".") for part in path.split(b"/")):
                raise OSError(0, "an entry names a file outside")
        empty_folder(self)
        files[LOG] = with_mark(files.get(LOG, b""))
        own, data = os.path.basename(self.results), files.pop(NAME, None)
        for path in sorted(files, key=lambda path: (path == own, path)):
            if path.endswith(b"/"):
                os.makedirs(os.path.join(self.folder, path), exist_ok=True)
                continue
            with open(os.path.join(self.folder, path), "xb") as file:
                file.write(files[path])
        self.leave_data(data)

    def leave_data(self, data):
        """Leaves what a report needs, under the number of this start of the runner."""
        if not (run := os.environb.get(RUN_ID)):
            return
        verdicts = [(self.prefix + case, PASSED) for case, _ in verdicts_of(self.cases, self.results, 0)]
        try:
            command = RunData(self.folder, data, 0.0).command if data else []
        except (ValueError, KeyError):
            command = []
        now = time.time()
        write_data(self.folder, run, (now, now), 0, command, verdicts, b"", is_restored=True)


def with_mark(log):
    return log + (b"\n" if log and not log.endswith(b"\n") else b"") + MARK
