"""Stands for the simulator in a run of vunit_configs: runs a bench in each of its configurations, and others unchanged.

usage: configured_bench SIMULATOR [WORD ..] <REQUEST

It asks vunit_configs what to run, by the socket in the folder that VUNIT_CONFIGS names, and starts nothing before it is told
to, so that all starts of a run have one limit. A configuration is a start of the simulator, which PATH finds behind that
folder, with the words of the configuration behind the others, and a request with a folder of its own. If all configurations
have passed, the results say that; otherwise it writes no results, and ends with 1. It ends with 75 where one of them has no
answer; of a bench without configurations with the code of the simulator. It ends its children if nobody reads its output any
more, or vunit_configs has gone.
"""

# Why it is so:
# The program starts this stand-in, so one proved run compiles, selects, starts and judges. Not a start of the program for
# each configuration; nor generated benches, which change 'path_name; nor a runner in Python.

import _signal as signal
import _socket as socket
import errno, os, select, sys, time

from bench_request import configuration_of, enabled_cases, pairs_of
from ghdl_keeper import Refused
from ghdl_library import Request
from run_data import FAILED, PASSED, verdicts_of
from tool_messages import Messages, packed

ENDING = {signal.SIGINT, signal.SIGTERM, signal.SIGHUP}
OUTPUT_LIMIT, PART, ENDS_WITHIN, NO_ANSWER = 4_096, 65_536, 10, 75


class Gone(Exception):
    """Nobody waits for an answer any more."""


def text(data):
    return len(data).to_bytes(4, "little") + data


class BenchRequest:
    """The request that the runner has made. What follows its head, the built files, waits in a file."""

    def __init__(self, folder):
        request = Request(b"VRB1")
        self.library, self.bench, self.architecture = request.text(), request.text(), request.text()
        self.cases = [request.text() for _ in range(request.number())]
        self.configuration, self.results = pairs_of(request.text()), request.text()
        self.spool = new_file(folder)
        while part := request.input.read(1 << 20):
            write_all(self.spool, part)

    def run_name(self):
        return self.results[: -len(b"/vunit_results")]

    def for_run(self, folder, room, cases):
        """A file with the request for a run of these cases in this folder."""
        pairs = {**self.configuration, b"enabled_test_cases": enabled_cases(cases), b"output path": folder + b"/"}
        head = [self.library, self.bench, self.architecture, *cases, configuration_of(pairs), folder + b"/vunit_results"]
        parts = [text(part) for part in head]
        file = new_file(room)
        write_all(file, b"".join([b"VRB1", *parts[:3], len(cases).to_bytes(4, "little"), *parts[3:]]))
        at, size = 0, os.fstat(self.spool).st_size
        while at < size:
            at += os.sendfile(file, self.spool, at, size - at)
        os.lseek(file, 0, os.SEEK_SET)
        return file


def new_file(folder):
    """A file without a name."""
    path = os.path.join(folder, os.urandom(8).hex().encode())
    file = os.open(path, os.O_RDWR | os.O_CREAT | os.O_EXCL | os.O_CLOEXEC, 0o600)
    os.unlink(path)
    return file


def write_all(file, data):
    while data:
        data = data[os.write(file, data) :]


class Start:
    """A start of the simulator: of a configuration of the bench, or of the bench without one. `name` is its place among all."""

    def __init__(self, name, folder, cases, words):
        self.name, self.folder, self.cases, self.words = name, folder, cases, words
        self.child, self.output, self.begun, self.verdicts, self.code = None, None, 0.0, [], 1
        self.shown = b""

    def prepare_folder(self):
        """Has the folder be there without results, as the runner does."""
        os.makedirs(self.folder, exist_ok=True)
        try:
            os.unlink(self.folder + b"/vunit_results")
        except FileNotFoundError:
            pass

    def begin(self, command, request, room):
        """Starts the simulator, or has it failed with the reason in its output."""
        self.begun = time.monotonic()
        self.output, theirs = os.pipe()
        files = [theirs]
        try:
            self.prepare_folder()
            files.append(request.for_run(self.folder, room, self.cases))
            streams = [(os.POSIX_SPAWN_DUP2, files[1], 0), (os.POSIX_SPAWN_DUP2, theirs, 1)]
            usual = {"setsigmask": (), "setsigdef": ENDING | {signal.SIGPIPE}}
            self.child = os.posix_spawnp(command[0], [*command, *self.words], os.environb, file_actions=streams, **usual)
        except OSError as fault:
            subject = self.folder if fault.filename is None else os.fsencode(fault.filename)
            self.shown = b"vunit_configs: %s: %s\n" % (subject, fault.strerror.encode())
        for file in files:
            os.close(file)

    def take(self):
        """Takes what the simulator prints; gives whether it has ended."""
        part = os.read(self.output, PART)
        self.shown += part[: OUTPUT_LIMIT - len(self.shown)]
        if part:
            return False
        os.close(self.output)
        if self.child is not None:
            code = os.waitstatus_to_exitcode(os.waitpid(self.child, 0)[1])
            self.code, self.child = (code if code >= 0 else 128 - code), None
            found = verdicts_of(self.cases, self.folder + b"/vunit_results", self.code)
            self.verdicts = [verdict for _, verdict in found]
        else:
            self.verdicts = [FAILED] * max(len(self.cases), 1)
        return True

    def has_passed(self):
        return bool(self.verdicts) and all(verdict == PASSED for verdict in self.verdicts)

    def report(self):
        seconds = b"%.3f" % (time.monotonic() - self.begun)
        return packed(b"ended", self.name, seconds, self.shown, *self.verdicts)


def leave_environment():
    """Takes out of the environment what vunit_configs has put there, as the folder in PATH; gives its folder."""
    folder = os.environb[b"VUNIT_CONFIGS"]
    for name in [name for name in os.environb if name.startswith(b"VUNIT_CONFIGS")]:
        del os.environb[name]
    # (a program between may have put other folders first)
    folders = os.environb[b"PATH"].split(b":")
    os.environb[b"PATH"] = b":".join([one for one in folders if one != os.path.join(folder, b"bin")])
    return folder


class ConfiguredBench:
    """The starts of one run of the runner."""

    def __init__(self, folder, command):
        self.folder, self.command = folder, command
        self.messages, self.starts, self.begun, self.running = Messages(), [], 0, {}
        self.is_configured = self.is_whole = self.is_stopped = False
        self.request = BenchRequest(folder)
        self.server = self.connected()

    def connected(self):
        server = socket.socket(socket.AF_UNIX, socket.SOCK_STREAM)
        # (a path of any length is short from the folder itself)
        inside = os.open(self.folder, os.O_PATH | os.O_DIRECTORY)
        server.connect(b"/proc/self/fd/%d/socket" % inside)
        os.close(inside)
        return server

    def run(self):
        request = self.request
        self.server.sendall(packed(b"run", request.library, request.bench, request.run_name(), *request.cases))
        waiting = select.poll()
        waiting.register(self.server, select.POLLIN)
        waiting.register(1, 0)
        is_planned = False
        while not is_planned or self.running or (self.begun < len(self.starts) and not self.is_stopped):
            ready = [number for number, _ in waiting.poll()]
            if 1 in ready:
                raise Gone()
            if self.server.fileno() in ready:
                is_planned = self.obey(waiting) or is_planned
            for output in [output for output in ready if output in self.running]:
                if self.running[output].take():
                    waiting.unregister(output)
                    self.server.sendall(self.running.pop(output).report())
        return self.answer()

    def obey(self, waiting):
        """Does what vunit_configs says; gives whether it has said all that there is to run."""
        data, is_planned = self.server.recv(PART), False
        if not data:
            raise Gone()
        for kind, *items in self.messages.taken(data):
            if kind == b"start":
                name, folder, count, *rest = items
                self.starts.append(Start(name, folder, rest[: int(count)], rest[int(count) :]))
            elif kind == b"planned":
                self.is_configured, self.is_whole, is_planned = items[0] == b"configured", items[1] == b"whole", True
            elif kind == b"go":
                start = self.starts[self.begun]
                self.begun += 1
                start.begin(self.command, self.request, self.folder)
                self.running[start.output] = start
                waiting.register(start.output, select.POLLIN)
            elif kind == b"stop":
                self.is_stopped = True
        return is_planned

    def answer(self):
        """The code for the runner, after what it wants to read was written."""
        begun = self.starts[: self.begun]
        if any(start.code == NO_ANSWER for start in begun):
            return NO_ANSWER
        if not self.is_configured:
            write_all(1, b"".join([start.shown for start in begun]))
            return begun[0].code if begun else 1
        self.leave_list()
        if not (self.is_whole and all(start.has_passed() for start in self.starts)):
            return 1
        lines = [b"test_start:%s\n" % case for case in self.request.cases]
        leave(self.request.results, b"".join([*lines, b"test_suite_done\n"]))
        return 0

    def leave_list(self):
        """Leaves in the folder of the run where those of its configurations are."""
        lines = []
        for at, start in enumerate(self.starts):
            word = b"pass" if start.has_passed() else b"fail" if at < self.begun else b"skip"
            lines.append(b"%s %s\n" % (word, start.folder))
        leave(self.request.run_name() + b"/output.txt", b"".join(lines))

    def end_all(self):
        """Ends each simulator, which ends its own children."""
        until = time.monotonic() + ENDS_WITHIN
        for number in (signal.SIGTERM, signal.SIGKILL):
            for start in self.running.values():
                if start.child is not None:
                    os.kill(start.child, number)
            while self.running and time.monotonic() < until:
                ready, _, _ = select.select(list(self.running), [], [], max(0, until - time.monotonic()))
                for output in ready:
                    if self.running[output].take():
                        del self.running[output]
            until = time.monotonic() + 1


def leave(path, data):
    """Writes a file anew."""
    try:
        os.unlink(path)
    except FileNotFoundError:
        pass
    with open(path, "xb") as file:
        file.write(data)


def end(number, _):
    raise SystemExit(128 + number)


def main():
    for number in ENDING:
        if signal.getsignal(number) != signal.SIG_IGN:
            signal.signal(number, end)
    bench = None
    try:
        bench = ConfiguredBench(leave_environment(), [os.fsencode(word) for word in sys.argv[1:]])
        code = bench.run()
    except Refused as refused:
        write_all(1, refused.text)
        code = refused.code
    except (Gone, ConnectionError):
        code = 128 + signal.SIGPIPE
    except OSError as fault:
        sys.stderr.write(f"vunit_configs: {fault.strerror}\n")
        code = NO_ANSWER if fault.errno in (errno.ENOSPC, errno.EMFILE, errno.ENOMEM) else 1
    finally:
        for number in ENDING:
            signal.signal(number, signal.SIG_IGN)
        if bench:
            bench.end_all()
    sys.stdout.flush()
    os._exit(code)
