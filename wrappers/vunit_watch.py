"""Runs vunit_run at each change of a source or project file. docs/user/EDITORS.md has a session.

usage: vunit_watch [WORD ..]

The words are those of vunit_run, and `--changed` is added where the program has it. The program is what VUNIT_RUN names; else
vunit_run in PATH; else the launcher of this checkout. It works in the folder of the project: the first run begins at once, each
later one 0.15 seconds after the last change. A change during a run ends that as Ctrl-C does. Where another run has the folder,
it waits, and runs that the launcher starts wait for one of the watch. Behind a run it prints a line `PATH:LINE:COLUMN: fail
NAME` for each case that failed. It ends at Ctrl-C, with the program and its children. It ends with 1 if the folder has no
project file when it starts, with 2 if the program refuses the words, and with 3 if the program can't be started.
"""

# Why it is so:
# The program says whether a new name belongs to the project, so patterns have one reader.
# The watch locks only vunit_out/watch around each run, and the launcher's starts share this lock, so neither refuses the
# other. Not a start again after a refusal, for which the launcher would have to stay and read the program's output.
# It looks for a process of the program in the folder while it has the lock, and then releases it. So either a start sees the
# lock, or the watch sees the start. A start that waits goes first.
# By /proc/locks it sees that a program without the launcher has the store. Trying the store's lock would end a run that
# begins just then.

import fcntl, gc, json, os, select, signal, subprocess, sys, tempfile, time

import folder_changes
from runner_words import RunnerWords, WrongWords
from tool_folder import ToolFolder
from vunit_lsp import find_program
from vunit_report import end_with_parent, read_xunit, split_name, stamp_of

QUIET, PATIENCE, LOOK_AGAIN = 0.15, 5.0, 0.2
NO_PROJECT, WRONG, OUTSIDE = 1, 2, 3
OUT, STORE, TURN = "vunit_out", "vunit_out/store_a", "vunit_out/watch"
CHANGED = "--changed"
# (a start by the watch, and each one below its run, waits for no watch)
VARIABLES = {**os.environ, "VUNIT_RUN_WATCHED": "1"}
STOPS = (signal.SIGINT, signal.SIGTERM, signal.SIGHUP)


def shown(text):
    """A text in one line: what isn't visible is `?`."""
    return "".join(letter if letter.isprintable() else "?" for letter in text)


def tell(text, end="\n"):
    sys.stderr.write(f"vunit_watch: {shown(text)}{end}")
    sys.stderr.flush()


def is_locked():
    """Whether a run has the store of the present folder. (It is only looked at: a lock that is tried for would end another run.)"""
    try:
        status = os.stat(STORE)
        with open("/proc/locks") as file:
            wanted = f"{os.major(status.st_dev):02x}:{os.minor(status.st_dev):02x}:{status.st_ino}"
            return any(wanted in line.split() and "FLOCK" in line for line in file)
    except OSError:
        return False


def is_taken():
    """Whether the lock of the store can't be had, where the system doesn't show whose it is."""
    try:
        with open(STORE, "rb") as file:
            fcntl.flock(file, fcntl.LOCK_SH | fcntl.LOCK_NB)
    except BlockingIOError:
        return True
    except OSError:
        pass
    return False


def is_beginning(program, own):
    """Whether another run of the program has begun in the present folder, and may be about to lock its store."""
    name, folder = os.path.basename(program)[:15], os.stat(".")
    for pid in filter(str.isdigit, os.listdir("/proc")):
        try:
            with open(f"/proc/{pid}/comm") as file:
                found = file.read().rstrip("\n")
            if found in (name, "vunit_run") and int(pid) != own and os.path.samestat(os.stat(f"/proc/{pid}/cwd"), folder):
                return True
        except OSError:
            pass
    return False


class Turn:
    """The lock that a run of the watch has alone. Runs that the launcher starts share it, so neither meets the other at the store's lock.
    A launcher that found no such lock is a process that `is_beginning` sees."""

    def __init__(self):
        self.file = None

    def take(self):
        """Whether the lock could be had. Where there can be none, it counts as had."""
        try:
            os.makedirs(OUT, exist_ok=True)
            self.file = os.open(TURN, os.O_RDWR | os.O_CREAT | os.O_NONBLOCK, 0o666)
            fcntl.flock(self.file, fcntl.LOCK_EX | fcntl.LOCK_NB)
        except BlockingIOError:
            self.close()
            return False
        except OSError:
            self.close()
        return True

    def leave(self):
        if self.file is not None:
            # (a process that the run left may have the file too)
            fcntl.flock(self.file, fcntl.LOCK_UN)
        self.close()

    def close(self):
        if self.file is not None:
            os.close(self.file)
            self.file = None


class Program:
    """The program, and a run of it in a process group of its own."""

    def __init__(self, command):
        self.command, self.child = command, None

    def start(self, words, turn=None, **streams):
        """Starts a run. It has the lock of the watch until its end, also where the watch is killed."""
        files = [turn.file] if turn and turn.file is not None else []
        self.child = subprocess.Popen([self.command, *words], stdin=subprocess.DEVNULL, start_new_session=True, env=VARIABLES,
                                      pass_fds=files, preexec_fn=end_with_parent(), **streams)

    def status(self):
        """What the run ended with, once it has."""
        if self.child is None or self.child.poll() is None:
            return None
        return self.child.returncode

    def signal(self, number):
        try:
            os.killpg(self.child.pid, number)
            return True
        except ProcessLookupError:
            return False

    def stop(self, number):
        """Ends the run and its children: by a signal, and after a while for good."""
        if self.child is None:
            return
        until, is_killed = time.monotonic() + PATIENCE, False
        self.signal(number)
        # (also the others of its group; if nobody takes up the ended ones, these stay)
        while self.child.poll() is None or self.signal(0):
            if time.monotonic() > until:
                if is_killed and self.child.poll() is not None:
                    break
                is_killed, until = self.signal(signal.SIGKILL), until + PATIENCE
            time.sleep(0.01)
        self.child = None


class Known:
    """What the watch knows of the project: its files, and where its tests are named."""

    def __init__(self, watch, folder):
        self.watch, self.path = watch, os.path.join(folder, "export.json")
        self.said, self.files, self.tests = None, None, {}

    def look(self):
        """Looks at the project. Tells whether it is another one than before: other files, or another refusal."""
        status, text = self.watch.ask(f"--export-json={self.path}")
        if status is None:
            return False
        before, self.said = (self.said, self.files), (status, text)
        if status == 0:
            with open(self.path, encoding="utf-8") as file:
                exported = json.load(file)
            self.files = {file["file_name"] for file in exported["files"]}
            self.tests = {test["name"]: test["location"] for test in exported["tests"]}
        return before != (self.said, self.files)

    def counts(self, change):
        """Whether a change is one of the project; None where only a look at the project tells."""
        return folder_changes.concerns(change, ".", self.files or (), self.said is not None and self.said[0] != 0)

    def place(self, name):
        """The path, the line and the column of a test, the latter two from 1 on, in bytes."""
        location = self.tests.get(name)
        if location is None:
            return None
        try:
            with open(location["file_name"], "rb") as file:
                before = file.read()[: location["offset"]]
        except OSError:
            return None
        return f'{location["file_name"]}:{before.count(10) + 1}:{len(before) - before.rfind(10)}'


class Words:
    """The words of each run: the given ones, and the words that the watch adds to a run of tests."""

    def __init__(self, watch, given, folder):
        self.words, self.results, self.before, self.opens_store = list(given), None, None, True
        try:
            read = RunnerWords([word for word in given if word != CHANGED])
        except WrongWords:
            # (the program says so itself)
            return
        self.opens_store = read.mode() in ("run", "compile")
        if read.mode() != "run":
            return
        self.results = read.values.get("xunit-xml") or os.path.join(folder, "results.xml")
        more = [] if "xunit-xml" in read.values else [f"--xunit-xml={self.results}"]
        # (a program without its launcher answers by its usage text, which has all options too)
        if CHANGED not in given and CHANGED.encode() in watch.ask("--help")[1]:
            more.append(CHANGED)
        self.words = [*more, *given]

    def remember(self):
        """Notes which report is there before a run."""
        self.before = stamp_of(self.results) if self.results else None

    def verdicts(self):
        """The verdicts of the run that has ended, by class and case, where it wrote a report."""
        if not self.results or stamp_of(self.results) in (None, self.before):
            return {}
        return read_xunit(self.results) or {}


class Watch:
    def __init__(self, words, folder):
        self.program, self.ending, self.line = Program(find_program()), False, False
        self.told, self.tells = os.pipe()
        for end in (self.told, self.tells):
            os.set_blocking(end, False)
        signal.set_wakeup_fd(self.tells, warn_on_full_buffer=False)
        signal.signal(signal.SIGCHLD, lambda number, frame: None)
        for number in STOPS:
            signal.signal(number, self.end_soon)
        self.changes, self.changed = folder_changes.follow("."), {}
        # (an invalid request is answered at once; a launcher that builds the program first says it)
        self.ask("child-bench", None)
        self.words, self.known, self.turn = Words(self, words, folder), Known(self, folder), Turn()

    def end_soon(self, number, _):
        self.ending = number

    def wait_for_signal(self):
        select.select([self.told], [], [])
        os.read(self.told, 4096)

    def wait(self, seconds=None):
        """Waits for a signal, for a change, or for this time."""
        files = [self.told] if self.changes.file is None else [self.told, self.changes.file]
        limits = [limit for limit in (seconds, self.changes.seconds) if limit is not None]
        ready, _, _ = select.select(files, [], [], min(limits, default=None))
        if self.told in ready:
            os.read(self.told, 4096)

    def ask(self, word, errors=subprocess.STDOUT):
        """Status and output of a run that isn't shown; nothing of one that a signal to the watch ends."""
        if self.ending:
            return None, b""
        with tempfile.TemporaryFile() as said:
            self.program.start([word], stdout=said, stderr=errors)
            while (status := self.program.status()) is None and not self.ending:
                self.wait_for_signal()
            if status is None:
                self.program.stop(self.ending)
                return None, b""
            self.program.child = None
            said.seek(0)
            return status, said.read()

    def take_changes(self):
        """Whether something of the project has changed since the last call. The names stay until the next run begins."""
        found = False
        for change in self.changes.changes():
            if (counts := self.known.counts(change)) is not False:
                self.changed[change.path] = self.changed.get(change.path) or counts
                found = True
        return found

    def next_change(self):
        """Waits until the project has changed, and has been quiet for a while."""
        while not self.ending:
            self.wait()
            if not self.take_changes():
                continue
            self.be_quiet()
            sure = [path for path, counts in self.changed.items() if counts]
            # (a new file may be one of the project, and a removed one have been one)
            if sure or self.known.look():
                self.say(f"{sure[0] if sure else 'the project'} changed")
                break
            self.changed.clear()

    def be_quiet(self):
        until = time.monotonic() + QUIET
        while not self.ending and (left := until - time.monotonic()) > 0:
            self.wait(left)
            if self.take_changes():
                until = time.monotonic() + QUIET

    def say(self, text):
        """Says something on a line of its own, in the place of the last line if that is the watch's."""
        if self.line:
            sys.stderr.write("\r\x1b[K")
            self.line = False
        if text:
            tell(text)

    def say_for_now(self, text):
        """Says something that the next words replace, on a terminal."""
        self.line = sys.stderr.isatty()
        tell(text, "" if self.line else "\n")

    def take_turn(self):
        """Whether no other run has the folder, and none can begin there by the launcher."""
        if self.words.opens_store and not self.turn.take():
            return False
        # (one that began before there was a lock is seen now; one that waits for the lock goes first)
        if is_locked() or is_beginning(self.program.command, os.getpid()):
            self.turn.leave()
            return False
        return True

    def wait_for_others(self):
        """Waits until no other run has the folder, which is then the watch's."""
        is_told = False
        while not self.ending and not self.take_turn():
            if not is_told:
                self.say_for_now("waits for another run")
                is_told = True
            self.wait(LOOK_AGAIN)
            self.take_changes()
        # (the run goes by the present state)
        self.changed.clear()
        self.say("")

    def run(self):
        """A run to its end. Gives its status, or None where a change, a signal or another run ended it."""
        self.wait_for_others()
        if self.ending:
            return None
        self.words.remember()
        self.program.start(self.words.words, self.turn)
        while (status := self.program.status()) is None:
            self.wait()
            if self.ending:
                return None
            if self.take_changes() and any(self.changed.values()):
                self.say("a change ends the run")
                self.program.stop(signal.SIGINT)
                break
        self.program.child = None
        # (a program that was started without the launcher may have had the store)
        is_refused = status == OUTSIDE and is_taken()
        self.turn.leave()
        if is_refused:
            self.wait(LOOK_AGAIN)
            return None
        return status

    def show_failures(self):
        failed = {case for case, verdict in self.words.verdicts().items() if verdict == "fail"}
        for name in self.known.tests if failed else ():
            if split_name(name) in failed:
                place = self.known.place(name)
                sys.stderr.write(shown(f"{place}: fail {name}" if place else f"fail {name}") + "\n")
        sys.stderr.flush()

    def work(self):
        """Runs until a signal ends it. Gives the status to end with."""
        self.known.look()
        while not self.ending:
            status = self.run()
            if status == WRONG:
                return WRONG
            if status is not None:
                is_new = self.known.look()
                self.show_failures()
                # (names that came or went during the run)
                if not (self.changed and is_new):
                    self.say_for_now(f"status {status if status >= 0 else 128 - status}, waits for a change")
                    self.next_change()
                self.changed.clear()
            elif not self.ending:
                self.be_quiet()
                self.changed.clear()
        self.say("")
        self.program.stop(self.ending)
        return 0


def main():
    words = sys.argv[1:]
    if words in (["--help"], ["-h"]):
        sys.stdout.write(__doc__)
        sys.exit(0)
    if not folder_changes.has_project("."):
        tell("no vunit.toml and no vunit.csv")
        sys.exit(NO_PROJECT)
    gc.enable()
    with ToolFolder("vunit_watch") as folder:
        try:
            watch = Watch(words, os.fspath(folder))
            status = watch.work()
        except OSError as fault:
            tell(f"{fault.filename or find_program()}: {fault.strerror}")
            sys.exit(OUTSIDE)
    if watch.ending:
        signal.signal(watch.ending, signal.SIG_DFL)
        os.kill(os.getpid(), watch.ending)
    sys.exit(status)
