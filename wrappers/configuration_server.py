"""The side of vunit_configs that runs the program, and tells the stand-ins of its simulator what to run and when.

At most as many simulations run at once as -p says, over all benches and configurations: each start waits to be told. So the program
may start a stand-in for each of its tests, and a stand-in as many simulations as there is room for."""

import os, select, signal, socket, tempfile, time

from run_data import FAILED, PASSED, SKIPPED
from tool_messages import Messages, packed
from vunit_tool import tell

PART, SHOWN_LIMIT = 65_536, 4_096
ENDING = (signal.SIGINT, signal.SIGTERM, signal.SIGHUP)
# Seconds that stand-ins have to end what they run, once the program has ended; seconds between looks at the clock, and up to the
# first summary and each later one.
ENDS_WITHIN, LOOK, FIRST_SUMMARY, NEXT_SUMMARY = 15, 1, 10, 30
LOST = b"vunit_configs: the simulation was ended from outside\n"


class StandIn:
    """The connection to a stand-in, and the run of the program that it is in."""

    def __init__(self, connection):
        self.connection, self.messages, self.run = connection, Messages(), None

    def send(self, *items):
        try:
            self.connection.sendall(packed(*items))
        except OSError:
            # (it has gone, and that is seen as the end of the connection)
            pass


class Progress:
    """The summary of a long run now and then, in place of the program, which is quiet: the number of ended tests."""

    def __init__(self, total):
        self.total, self.counts, self.told = total, {PASSED: 0, FAILED: 0, SKIPPED: 0}, 0
        self.due = time.monotonic() + FIRST_SUMMARY

    def add(self, verdicts):
        for verdict in verdicts:
            self.counts[verdict] += 1

    def tell_if_due(self):
        ended = sum(self.counts.values())
        if time.monotonic() >= self.due and ended > self.told:
            tell("vunit_configs", f"[{ended}/{self.total}] {self.counts[PASSED]} passed, {self.counts[FAILED]} failed")
            self.told, self.due = ended, time.monotonic() + NEXT_SUMMARY


class Server:
    """Serves one run of the program. `plan` says what a run of a bench stands for."""

    def __init__(self, plan, at_once, flags, folder):
        self.plan, self.free, self.fails_fast = plan, at_once, "fail-fast" in flags
        self.progress = None if "quiet" in flags or os.isatty(2) else Progress(plan.count())
        self.stand_ins, self.runs, self.is_stopped = {}, {}, False
        self.said, self.is_open, self.signal = [], True, None
        self.spool = tempfile.TemporaryFile(dir=folder)
        self.listener = socket.socket(socket.AF_UNIX, socket.SOCK_STREAM)
        # (a path of any length is short from the folder itself)
        inside = os.open(folder, os.O_PATH | os.O_DIRECTORY)
        self.listener.bind(f"/proc/self/fd/{inside}/socket")
        os.close(inside)
        self.listener.listen(128)

    def serve(self, child):
        """Answers the stand-ins until the program has ended; gives what it printed."""
        self.child, self.waiting = child, select.poll()
        self.woken, wakes = os.pipe()
        os.set_blocking(wakes, False)
        signal.set_wakeup_fd(wakes, warn_on_full_buffer=False)
        for number in ENDING:
            # (nohup and the like have it ignored)
            if signal.getsignal(number) != signal.SIG_IGN:
                signal.signal(number, lambda *_: None)
        for file in (self.listener.fileno(), child.stdout.fileno(), self.woken):
            self.waiting.register(file, select.POLLIN)
        while self.is_open or self.stand_ins:
            ready = self.waiting.poll(LOOK * 1000 if self.is_open else ENDS_WITHIN * 1000)
            if not (ready or self.is_open):
                break
            for file, _ in ready:
                self.take(file)
            self.grant()
            if self.progress:
                self.progress.tell_if_due()
        return b"".join(self.said)

    def take(self, file):
        """Takes the bytes that one connection has sent."""
        if file in self.stand_ins:
            self.hear(self.stand_ins[file])
        elif file == self.listener.fileno():
            self.accept()
        elif file == self.woken:
            self.hand_on_signal(os.read(self.woken, 1)[0])
        else:
            part = os.read(file, PART)
            self.said.append(part)
            if not part:
                self.is_open = False
                self.waiting.unregister(file)

    def hand_on_signal(self, number):
        if number in ENDING:
            self.signal = number
            self.stop()
            if self.child.poll() is None:
                self.child.send_signal(number)

    def accept(self):
        connection, _ = self.listener.accept()
        self.stand_ins[connection.fileno()] = StandIn(connection)
        self.waiting.register(connection, select.POLLIN)

    def hear(self, stand_in):
        try:
            data = stand_in.connection.recv(PART)
        except OSError:
            data = b""
        if not data:
            self.lose(stand_in)
        for kind, *items in stand_in.messages.taken(data):
            if kind == b"run":
                self.begin(stand_in, *items)
            else:
                self.take_end(stand_in.run, *items)

    def lose(self, stand_in):
        """A stand-in has ended, and with it what it ran."""
        self.waiting.unregister(stand_in.connection)
        del self.stand_ins[stand_in.connection.fileno()]
        stand_in.connection.close()
        for start in stand_in.run.starts if stand_in.run else []:
            if start.is_running:
                self.free += 1
                start.fail()
                self.keep(start, LOST)

    def keep(self, start, shown):
        """Keeps the output of a start."""
        first = self.spool.seek(0, os.SEEK_END)
        self.spool.write(shown[:SHOWN_LIMIT])
        start.shown = first, min(len(shown), SHOWN_LIMIT)

    def shown(self, start):
        first, length = start.shown
        self.spool.seek(first)
        return self.spool.read(length)

    def begin(self, stand_in, library, bench, folder, *cases):
        """Says what a run of the program stands for."""
        bench = b"%s.%s" % (library, bench)
        stand_in.run = run = self.plan.run_of(bench, list(cases), folder)
        self.runs.update(dict.fromkeys(run.names, run))
        for at, start in enumerate(run.able):
            stand_in.send(b"start", b"%d" % at, start.folder, b"%d" % len(start.cases), *start.cases, *start.words)
        stand_in.send(b"planned", b"configured" if run.is_configured else b"plain", b"whole" if run.able == run.starts else b"cut")
        for start in run.starts:
            if start.fault is not None:
                start.fail()
                self.keep(start, start.fault)
                self.take_failure(run, start)
        if self.is_stopped:
            stand_in.send(b"stop")

    def grant(self):
        """Lets starts begin, those of the oldest stand-in first, as far as there is room."""
        for stand_in in self.stand_ins.values() if not self.is_stopped else []:
            while self.free and stand_in.run and (start := stand_in.run.next_start()):
                start.is_running = True
                stand_in.run.granted += 1
                self.free -= 1
                stand_in.send(b"go")

    def take_end(self, run, at, seconds, shown, *verdicts):
        start = run.able[int(at)]
        start.is_running, start.verdicts, start.seconds = False, list(verdicts), float(seconds)
        self.keep(start, shown)
        self.free += 1
        if self.progress:
            self.progress.add(start.verdicts)
        if not start.has_passed():
            self.take_failure(run, start)

    def take_failure(self, run, start):
        for name in start.names() if run.is_configured else []:
            if name.verdict == FAILED:
                said = b"fail %s (%.1f s): %s" % (name.full(), start.seconds, start.folder)
                tell("vunit_configs", said.decode(errors="replace"))
        if self.fails_fast:
            self.stop()

    def stop(self):
        if not self.is_stopped:
            self.is_stopped = True
            for stand_in in self.stand_ins.values():
                stand_in.send(b"stop")
