"""Runs one bench with GHDL: a simulator of vunit_run, by the bench request of docs/FORMATS.md.

usage: ghdl_bench [WORD ..] <REQUEST

The request has files that ghdl_analyse made. Its words: --cpu-limit=SECONDS of processor time, --wall-limit=SECONDS,
--memory-limit=MEGABYTES of 1,048,576 bytes. --seed=WORD: the bench's seed follows from WORD and the name of the run. Generics,
hooks and words of some benches: see bench_words.py. Other words that begin with -- are for the simulation, and the rest for its
analysis. {output} in a word is the folder of the run, which is emptied before anything is started. GHDL runs in the present
folder, with nothing as its standard input and with PATH alone. Its output goes to output.txt in the folder of the run, and at
most 4,096 bytes of that to standard output at the end. For a failed bench a last line says where and why. The results are
written by the VHDL library alone.

Variables are for one invocation. GHDL_BENCH_KEEP=1 keeps the libraries in the folder of the run, with a script that repeats it.
GHDL_BENCH_WORDS has words by which GHDL records something into that folder. With VUNIT_RUN_ID, the number of the runner's
start, data for reports are left there, in the form of docs/FORMATS.md.

It ends with GHDL's code, or with 1 instead of 75; with 1 if the bench is refused or ended; with 2 if the input is not a
request. It ends with 75, and why on standard error, without an answer: GHDL could not be started, or TMPDIR is missing or full.
It ends with 128 and the number of a signal that ended GHDL or the program; a closed standard output counts as SIGPIPE.
"""

# Why it is so:
# At each start GHDL reads every named package whole, so most benches get short ones: vunit_lib/everyday.py says how.
# The seed follows from the name of the run and a word of the project file. With a random seed a recorded pass would say
# nothing.
# A signal that ends a simulation gives a failed case.
# Sources lie in counted folders under the user's paths, which are the paths that GHDL names.

import sys, time

import quick_os as os
from ghdl_keeper import (KEEPER, MEMORY, NO_ANSWER_CODE, OUTPUT, PROCESSOR, WALL, Limits, NoAnswer, Refused, fault_of,
                         remove_within, run_program)
from ghdl_library import UNSEEN, Request, Restored, as_named, for_ghdl
from run_data import lines_of, verdicts_of, write_data
from shipped_library import OBJECTS, SHIPPED, ShortPackages, library_file

# What Linux takes as one word of a command.
ARGUMENT_LIMIT = 131_071
OUTPUT_LIMIT, LOG_LIMIT = 4_096, 67_108_864
FILE_NAME_LIMIT = 255
# What begins words that aren't for GHDL or limits, and the generics that are filled in: bench_given.py has both.
CONFIGURATION = b"--configuration="
GIVEN = (b"-g", b"--in=", b"--before=", b"--after=", b"--data=", b"--key=", CONFIGURATION)
FILLED_IN = (b"tb_path", b"output_path")
# The launcher gives each start a number.
RUN_ID = b"VUNIT_RUN_ID"
# The folders of runs lie in this one: no other folder is emptied.
RUNS = b"vunit_out/tests/"
# The words that limit a simulation, with their units, in the order in which the keeper takes them.
LIMITS = {b"--cpu-limit": b"seconds", b"--wall-limit": b"seconds", b"--memory-limit": b"megabytes"}
# The words of GHDL_BENCH_WORDS; all but one name a file that GHDL makes.
READ = b"--read-wave-opt"
RECORDING = (b"--wave", b"--vcd", b"--fst", READ, b"--write-wave-opt", b"--psl-report")
# Where libraries are kept in the folder of a run.
LIBRARIES = b"libraries"
BAD_REQUEST = 2
# Bytes of a log that are searched for what GHDL refuses.
LOG_START = 65_536
# Bytes that GHDL takes neither in a generic nor in a library file.
UNTAKEN = bytes(range(0x80, 0xA0))


def is_name(name):
    """Whether this is the name of an entity or of an architecture, extended or not."""
    if name[:1] == b"\\":
        inner = name[1:-1]
        return len(name) > 2 and name.endswith(b"\\") and not any(byte in inner for byte in b"\n\r\v\f\0") and (
            b"\\" not in inner.replace(b"\\\\", b""))
    return name[:1].isalpha() and name.replace(b"_", b"0").isalnum()


def untaken(text):
    """The first byte that GHDL doesn't take, or None."""
    return next((byte for byte in text if byte in UNTAKEN), None)


class Bench:
    """What a request asks for."""

    def __init__(self, request, words):
        self.library, self.name, self.architecture = request.library(), request.text(), request.text()
        self.cases = [request.text() for _ in range(request.number())]
        self.configuration, self.results = request.text(), request.path()
        if not (is_name(self.name) and is_name(self.architecture)) or b"\0" in self.configuration:
            raise Refused(b"bad request\n", 2)
        self.folder = os.path.dirname(self.results)
        if not self.folder:
            raise Refused(b"bad request\n", 2)
        self.log = os.path.join(self.folder, b"output.txt")
        # (with this the names of its cases begin in a report)
        names = [word[len(CONFIGURATION) :] + b"." for word in words if word.startswith(CONFIGURATION)]
        self.words, self.prefix = words, b"".join(names[:1])

    def generic(self, seed):
        word = b"-grunner_cfg=" + self.configuration
        if len(word) > ARGUMENT_LIMIT:
            raise Refused(b"ghdl_bench: %d bytes of configuration are more than a command takes: put fewer cases into one "
                          b"simulation\n" % len(self.configuration))
        if (found := untaken(word)) is not None:
            raise Refused(b"ghdl_bench: GHDL takes no byte %d in a generic: rename the case, or the folder of the bench\n"
                          % found)
        pair = b",seed : " + self.seed(seed)
        return word + pair if len(word) + len(pair) <= ARGUMENT_LIMIT else word

    def seed(self, word):
        """16 digits that follow from the name of the run and a word, by the hash FNV-1a of 64 bits."""
        value = 0xCBF29CE484222325
        for byte in os.path.split(self.folder)[1] + b"\0" + word:
            value = (value ^ byte) * 0x100000001B3 % 2**64
        return b"%016x" % value


class Words:
    """The words of the simulator: its limits, and words for GHDL before the bench's name and after it."""

    def __init__(self, words, bench, present):
        self.limits, self.before, self.after, self.seed = dict.fromkeys(LIMITS, 0), [], [], b""
        for word in words:
            if not word.startswith(b"-") or word.startswith((b"--work", b"--PREFIX")):
                raise Refused(b"ghdl_bench: %s isn't for the project file: it names a file, a library or the runner's "
                              b"generic\n" % word)
            if word.startswith(b"--std"):
                raise Refused(b"ghdl_bench: --std is that with which the files were compiled\n")
            name, equals, value = word.partition(b"=")
            word = word.replace(b"{output}", bench.folder + b"/")
            if equals and name in LIMITS:
                self.limits[name] = limit(name, value)
            elif name == b"--seed" and equals:
                self.seed = value
            elif word.startswith(b"--"):
                self.after.append(word)
            else:
                self.before.append(for_ghdl(word, present))

    def add_recorded(self, text, bench):
        """Adds words of one invocation: they have GHDL record something, and can't change a verdict."""
        for word in text.split():
            name, equals, value = word.partition(b"=")
            if name not in RECORDING or not value:
                raise Refused(b"ghdl_bench: GHDL_BENCH_WORDS: %s isn't one of %s\n" % (word, b"=, ".join(RECORDING) + b"="))
            self.after.append(name + equals + (read_path(value) if name == READ else recorded_path(value, bench)))

    def for_keeper(self):
        return Limits(LOG_LIMIT, *(self.limits[name] for name in LIMITS))


def read_path(value):
    if not os.access(value, os.R_OK):
        raise Refused(b"ghdl_bench: GHDL_BENCH_WORDS: %s can't be read\n" % value)
    return value


def recorded_path(value, bench):
    """Where a file of GHDL_BENCH_WORDS lies: in the folder of the run, and not over one that the run needs."""
    path = value.replace(b"{output}", bench.folder + b"/") if b"{output}" in value else os.path.join(bench.folder, value)
    from posixpath import normpath

    path, inside = normpath(path), bench.folder + b"/"
    if not path.startswith(inside) or path in (bench.results, bench.log) or path.startswith(inside + LIBRARIES + b"/"):
        raise Refused(b"ghdl_bench: GHDL_BENCH_WORDS: %s leads out of the folder of the run, or is a file that the run needs\n"
                      % value)
    os.makedirs(os.path.dirname(path), exist_ok=True)
    return path


def limit(name, value):
    if not (value.isdigit() and len(value) <= 9 and not value.startswith(b"0")):
        raise Refused(b"ghdl_bench: %s takes a number of %s, from 1 on\n" % (name, LIMITS[name]))
    return int(value)


def place(libraries, position, built):
    """Where a restored source is: its folder counts up, and its name is the user's, so that GHDL's messages name that."""
    # (GHDL's library files never hold these bytes)
    name = as_named(built.path)
    if any(len(part) > FILE_NAME_LIMIT for part in name.split(b"/")):
        name = b"file.vhd"
    return b"%s/%d/" % (libraries, position), name


def output_of(path, kept):
    """What is put of a bench that has passed: the log, or its end, and how it is repeated."""
    limit = OUTPUT_LIMIT - len(kept) - len(b"\n" if kept else b"")
    with open(path, "rb") as log:
        size = log.seek(0, os.SEEK_END)
        log.seek(max(0, size - limit))
        text = log.read()
    if size > limit:
        from ghdl_failure import last_lines

        text = last_lines(text, path, limit)
    return text + (b"\n" if text and kept and not text.endswith(b"\n") else b"") + kept


def missing(bench):
    """What the results lack of a bench that ended with 0."""
    lines = lines_of(bench.results)
    if lines is None:
        return b"ghdl_bench: the bench ended without test_runner_setup: there are no results\n"
    if b"test_suite_done" not in lines:
        return b"ghdl_bench: the bench ended without test_runner_cleanup\n"
    left = [case for case in bench.cases if b"test_start:" + case not in lines]
    if left:
        return b"ghdl_bench: %d cases were never started, the first of them: %s\n" % (len(left), left[0])
    return b""


def leave_data(bench, command, begun, code, error):
    """Leaves what a report needs of this run, where the runner's start has a number."""
    if run := os.environb.get(RUN_ID):
        verdicts = [(bench.prefix + case, verdict) for case, verdict in verdicts_of(bench.cases, bench.results, code)]
        try:
            write_data(bench.folder, run, (begun, time.time()), code, [b"ghdl", *command], verdicts, error)
        except OSError:
            # (the verdict stands, and a report says that the data of the case are missing)
            pass


def mount_points():
    """The folders on which something is mounted, by their paths without links."""
    with open("/proc/self/mountinfo", "rb") as file:
        for line in file:
            first, *rest = line.split(b" ")[4].split(b"\\")
            yield first + b"".join(bytes((int(part[:3], 8),)) + part[3:] for part in rest)


def mounted_in(folder):
    """What is mounted in a folder."""
    from posixpath import realpath

    inside = realpath(folder) + b"/"
    return [path for path in mount_points() if path.startswith(inside)]


def empty_folder(bench):
    """Empties the folder of the run: what an earlier one has left could make a bench pass."""
    if not bench.folder.startswith(RUNS):
        if os.listdir(bench.folder):
            raise Refused(b"ghdl_bench: %s isn't empty, and only folders in %s are emptied\n" % (bench.folder, RUNS[:-1]))
        return
    parts = bench.folder.split(b"/")
    for count in range(RUNS.count(b"/") + 1, len(parts) + 1):
        if os.path.islink(path := b"/".join(parts[:count])):
            os.unlink(path)
            os.makedirs(bench.folder)
    with os.scandir(bench.folder) as entries:
        has_folders = any(entry.is_dir(follow_symlinks=False) for entry in entries)
    if has_folders and (mounted := mounted_in(bench.folder)):
        raise Refused(b"ghdl_bench: something is mounted in the folder of the run: unmount %s\n" % mounted[0])
    remove_within(bench.folder)


def prepare_folder(bench):
    """Has the folder of the run hold nothing but an empty log."""
    try:
        empty_folder(bench)
        with open(bench.log, "xb"):
            pass
    except OSError as fault:
        raise Refused(b"ghdl_bench: " + fault_of(fault, bench.folder))


def given_of(room, used, bench):
    """What the words give to this run beside words for GHDL and limits, or None."""
    source = used.entity(bench.library, bench.name)[0].lower()
    if not any(word.startswith(GIVEN) for word in bench.words) and not any(name in source for name in FILLED_IN):
        return None
    from bench_given import Given

    return Given(room, used, bench)


def command_of(used, words, bench, generics, shipped):
    """The words by which GHDL runs the bench, with the library vunit_lib in the folder `shipped`, unless that is empty."""
    before = list(dict.fromkeys([*used.words(), *words.before]))
    if shipped:
        before.append(b"-P" + shipped)
    before.append(b"-P" + os.path.join(used.folder, UNSEEN))
    return [b"-r", b"--std=" + used.latest_standard(), b"-P" + used.folder, *before, b"--work=" + bench.library,
            b"--workdir=" + used.folder, bench.name, bench.architecture, *generics, b"--assert-level=error", *words.after]


def keep_libraries(used, bench, present):
    """Has the libraries of this run lie in its folder, where they stay."""
    used.folder = os.path.join(present, bench.folder, LIBRARIES)
    os.mkdir(used.folder)


def leave_command(bench, present, command):
    """Leaves a script that repeats a run whose libraries are kept, and gives the command that starts it."""
    import shlex

    script, words = os.path.join(bench.folder, b"repeat"), [os.fsdecode(word) for word in (b"ghdl", *command)]
    text = f"#!/bin/sh\n# Repeats this run; further words are GHDL's.\ncd {shlex.quote(os.fsdecode(present))} || exit\n" \
           f"exec {shlex.join(words)} \"$@\"\n"
    with open(script, "xb") as file:
        file.write(os.fsencode(text))
    return b"(to repeat it: sh %s)\n" % os.fsencode(shlex.quote(os.fsdecode(script)))


ENDED = b"ghdl_bench: the bench was ended, since it "
TOOK = {OUTPUT: b"printed over %d bytes\n" % LOG_LIMIT, PROCESSOR: b"took over %d seconds of processor time\n",
        WALL: b"took over %d seconds\n", MEMORY: b"took over %d megabytes of memory\n"}


def ended_by(words, why):
    """The message about an exceeded limit."""
    limits = dict(zip((PROCESSOR, WALL, MEMORY), words.limits.values()))
    return TOOK[why] % limits[why] if why in limits else TOOK[why]


def judge(bench, words, code, why):
    """The code of a bench that has ended in this way, and the message."""
    if why == KEEPER:
        return 1, b"ghdl_bench: the process that watches over GHDL was ended, and GHDL with it\n"
    if why:
        return 1, ENDED + ended_by(words, why)
    if code < 0:
        return 128 - code, b"ghdl_bench: GHDL was ended by signal %d\n" % -code
    if code == NO_ANSWER_CODE:
        # (the bench chose it, and it isn't that there is no answer)
        return 1, b""
    return code, missing(bench) if code == 0 else b""


def restore(used, bench, keeps, present):
    """Writes the libraries and the sources that the bench needs. Gives the folder that has vunit_lib, or nothing where the project has
    one of its own."""
    if keeps:
        keep_libraries(used, bench, present)
    if (found := untaken(used.folder)) is not None:
        remedy = b"keep no libraries there" if keeps else b"set TMPDIR to another"
        raise Refused(b"ghdl_bench: GHDL takes no byte %d in the name of a folder: %s\n" % (found, remedy))
    used.standard = used.standard or b"08"
    used.write_libraries(lambda position, built: place(used.folder, position, built))
    used.write_unseen()
    is_shipped = used.standard == b"08" and not used.has_library(b"vunit_lib")
    if not is_shipped or keeps or untaken(SHIPPED) is not None:
        used.write_sources(bench.name)
        return SHIPPED if is_shipped else b""
    packages, folder = ShortPackages(), os.path.join(used.folder, b"shipped")
    found = used.write_sources(bench.name, watched=packages.words)
    used.write_in(folder, OBJECTS, library_file(packages.without(found)))
    return folder


def was_refused(bench, ended, why):
    """Whether GHDL refused the bench before it simulated anything, as it does where short packages lack what is called."""
    if ended != 1 or why or os.path.isfile(bench.results):
        return False
    from ghdl_failure import REFUSED

    try:
        with open(bench.log, "rb") as log:
            return any(REFUSED.match(line) for line in log.read(LOG_START).split(b"\n"))
    except OSError:
        # (somebody has removed the log)
        return False


def untried(room):
    """The note with a failed bench about a GHDL with which the wrapper wasn't tried, or nothing."""
    from ghdl_version import untried_in

    said = os.path.join(room.folder, b"version")
    try:
        code, _ = room.run([b"--version"], said, Limits(OUTPUT_LIMIT, wall=2))
        with open(said, "rb") as file:
            text = untried_in(file.read(OUTPUT_LIMIT)) if code == 0 else ""
    except (NoAnswer, OSError):
        # (the verdict stands)
        return b""
    return f"({text})\n".encode() if text else b""


def hooks_of(given, words):
    """The hooks of a run, or None."""
    if not given or not (given.before or given.after):
        return None
    from bench_hooks import Hooks

    return Hooks(given, words.for_keeper(), lambda why: ended_by(words, why))


def fail_by_hook(bench, used, hooks, begun, said):
    """The code, the output and no warning of a run that a hook before its simulation has failed."""
    from ghdl_failure import Failure

    failure = Failure(bench, used, 1, said, hooks.log)
    leave_data(bench, [], begun, 1, failure.line)
    return 1, failure.text(b"", OUTPUT_LIMIT), b""


def simulate(room, request, bench):
    """The code of a bench, what is put, and nothing for standard error."""
    used = Restored(room, request)
    request.end()
    prepare_folder(bench)
    given = given_of(room, used, bench)
    words = Words(given.plain if given else bench.words, bench, room.present)
    generics, hooks = [bench.generic(words.seed), *(given.generics() if given else ())], hooks_of(given, words)
    words.add_recorded(os.environb.get(b"GHDL_BENCH_WORDS", b""), bench)
    keeps, begun = os.environb.get(b"GHDL_BENCH_KEEP") == b"1", time.time()
    if hooks and (said := hooks.run_before()):
        return fail_by_hook(bench, used, hooks, begun, said)
    shipped = restore(used, bench, keeps, room.present)
    command = command_of(used, words, bench, generics, shipped)
    kept = leave_command(bench, room.present, command) if keeps else b""
    ended, why = room.run(command, bench.log, words.for_keeper())
    if shipped not in (b"", SHIPPED) and was_refused(bench, ended, why):
        command = command_of(used, words, bench, generics, SHIPPED)
        ended, why = room.run(command, bench.log, words.for_keeper())
    code, said = judge(bench, words, ended, why)
    try:
        said_after, fails_run = hooks.run_after(code) if hooks else (b"", False)
        if code == 0 and not (said or fails_run):
            leave_data(bench, command, begun, code, b"")
            return code, output_of(bench.log, kept), b""
        from ghdl_failure import Failure

        if fails_run:
            code, failure = 1, Failure(bench, used, 1, said_after, hooks.log)
        else:
            failure, kept = Failure(bench, used, ended, said), said_after + kept + untried(room)
        leave_data(bench, command, begun, code, failure.line)
        return code, failure.text(kept, OUTPUT_LIMIT), b""
    except OSError as fault:
        # (somebody has removed the log)
        raise Refused(b"ghdl_bench: " + fault_of(fault, bench.folder))


def run_bench(room):
    request = Request(b"VRB1")
    bench, begun = Bench(request, [os.fsencode(word) for word in sys.argv[1:]]), time.time()
    room.make()
    try:
        return simulate(room, request, bench)
    except Refused as refused:
        if refused.code != BAD_REQUEST:
            leave_data(bench, [], begun, refused.code, refused.text.removeprefix(b"ghdl_bench: "))
        raise


# What a program does that has the request already.
WORK = run_bench


def main():
    if sys.argv[1:2] == ["--cache-key"]:
        import ghdl_key

        ghdl_key.main("ghdl_bench", sys.argv[2:])
    run_program("ghdl_bench", WORK)
