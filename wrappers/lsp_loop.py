"""Waits for what a client sends, for programs that run, and for times: one thread, and no processor time while nothing happens."""

# Why it is so:
# Output is written while the client has room. O_NONBLOCK is never set, since others may share the output.

import errno, os, selectors, signal, subprocess, sys, time, traceback

from vunit_report import end_with_parent

CHUNK, OUTPUT_LIMIT = 65536, 67_108_864
# A client that reads nothing is sent nothing more, and nothing is read from it, while this many bytes wait for it.
WAITING_LIMIT = 1_048_576
# What a pipe takes at once that has room.
PIPE_PART = 4096
# How long output is waited for that another process holds open, once a program has ended.
LAST_OUTPUT = 0.5


def do(work, *given):
    """Does a piece of work. A fault in it is told on standard error, and the server goes on."""
    try:
        work(*given)
    except Exception:
        traceback.print_exc(file=sys.stderr)


class Run:
    """A program that runs in a process group of its own, and its output."""

    def __init__(self, loop, words, folder, ended, told=None, environment=None):
        """`ended` is called with this run once it has ended; `told` with each part of its standard error."""
        self.loop, self.ended, self.told, self.parts = loop, ended, told, {}
        self.started, self.fault, self.status, self.is_dropped = time.monotonic(), None, None, False
        try:
            self.child = subprocess.Popen(words, cwd=folder, env=environment, stdin=subprocess.DEVNULL, stdout=subprocess.PIPE,
                                          stderr=subprocess.PIPE, start_new_session=True, preexec_fn=end_with_parent())
        except (OSError, ValueError, subprocess.SubprocessError) as fault:
            self.child, self.fault = None, getattr(fault, "strerror", None) or str(fault)
            loop.at(self, 0, self.end)
            return
        self.pipes = [self.child.stdout, self.child.stderr]
        for pipe in self.pipes:
            self.parts[pipe] = bytearray()
            loop.read(pipe, lambda pipe=pipe: self.take(pipe))
        loop.runs.add(self)

    def take(self, pipe):
        part = os.read(pipe.fileno(), CHUNK)
        if not part:
            self.close(pipe)
            self.look()
            return
        if len(self.parts[pipe]) < OUTPUT_LIMIT:
            self.parts[pipe] += part
        if pipe is self.child.stderr and self.told and not self.is_dropped:
            self.told(self, part)

    def close(self, pipe):
        self.loop.forget(pipe)
        pipe.close()
        self.pipes.remove(pipe)

    def look(self):
        """Looks whether it has ended: the process, and its output, unless that is held open for longer."""
        if self.child.poll() is None:
            return
        if self.pipes:
            self.loop.at(self, LAST_OUTPUT, self.end)
        else:
            self.end()

    def end(self):
        self.loop.never(self)
        self.loop.runs.discard(self)
        if self.child:
            for pipe in list(self.pipes):
                self.close(pipe)
            self.status = self.child.returncode
        if not self.is_dropped:
            do(self.ended, self)

    def output(self):
        return bytes(self.parts.get(self.child and self.child.stdout, b""))

    def errors(self):
        return bytes(self.parts.get(self.child and self.child.stderr, b""))

    def age(self):
        return time.monotonic() - self.started

    def drop(self, number=signal.SIGKILL):
        """Ends it with its children; what it printed is of no use any more."""
        self.is_dropped = True
        self.signal(number)

    def signal(self, number):
        if self.child and self.child.returncode is None:
            try:
                os.killpg(self.child.pid, number)
            except ProcessLookupError:
                pass


class Loop:
    """What is waited for. `input` and `output` are those of the client."""

    def __init__(self, input, output):
        # (the input may be a regular file, which no other selector takes)
        self.selector, self.times, self.runs, self.waiting = selectors.PollSelector(), {}, set(), bytearray()
        self.input, self.output, self.is_closed, self.take_input = input, output, False, None
        self.told, self.tells = os.pipe()
        for end in (self.told, self.tells):
            os.set_blocking(end, False)
        signal.signal(signal.SIGCHLD, lambda number, frame: None)
        signal.set_wakeup_fd(self.tells, warn_on_full_buffer=False)
        self.read(self.told, self.look)

    def read(self, source, work):
        self.selector.register(source, selectors.EVENT_READ, work)

    def forget(self, source):
        self.selector.unregister(source)

    def look(self):
        """A signal has come: a program may have ended."""
        os.read(self.told, CHUNK)
        for run in list(self.runs):
            run.look()

    def at(self, name, seconds, work):
        """Does this work after this number of seconds, in place of earlier work of this name."""
        self.times[name] = time.monotonic() + seconds, work

    def never(self, name):
        self.times.pop(name, None)

    def write(self, data):
        self.waiting += data
        self.put()

    def put(self):
        """Writes what the output takes without waiting, a part at a time."""
        while self.waiting and not self.is_closed and self.has_room():
            try:
                written = os.write(self.output, self.waiting[:PIPE_PART])
            except OSError as fault:
                self.is_closed = fault.errno not in (errno.EAGAIN, errno.EINTR)
                break
            del self.waiting[:written]
        wants_input = self.take_input and len(self.waiting) <= WAITING_LIMIT
        self.watch(self.output, self.put if self.waiting and not self.is_closed else None, selectors.EVENT_WRITE)
        self.watch(self.input, self.take_input if wants_input else None, selectors.EVENT_READ)

    def has_room(self):
        with selectors.PollSelector() as room:
            room.register(self.output, selectors.EVENT_WRITE)
            return bool(room.select(0))

    def watch(self, source, work, event):
        """Has this work be done when there is such an event, or nothing."""
        known = source in self.selector.get_map()
        if work and not known:
            self.selector.register(source, event, work)
        elif known and not work:
            self.selector.unregister(source)

    def take_with(self, work):
        """Has this work take the input, from now on."""
        self.take_input = work
        self.watch(self.input, work, selectors.EVENT_READ)

    def turn(self):
        """Waits for what comes next, and does it."""
        until = min((moment for moment, _ in self.times.values()), default=None)
        for key, _ in self.selector.select(None if until is None else max(0, until - time.monotonic())):
            # (what came before may have closed it)
            known = self.selector.get_map().get(key.fd)
            if known and known.fileobj is key.fileobj:
                key.data()
        now = time.monotonic()
        for name in [name for name, (moment, _) in self.times.items() if moment <= now]:
            if name in self.times:
                do(self.times.pop(name)[1])
