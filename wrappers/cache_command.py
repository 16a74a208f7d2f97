"""The command behind the cache: it is found, and run over a request, and neither it nor a file is left whatever ends the wrapper."""

import _signal as signal
import sys, time

import quick_os as os

NO_ANSWER = 75
ENDING = (signal.SIGINT, signal.SIGTERM, signal.SIGHUP)
USUAL_AGAIN = {*ENDING, signal.SIGPIPE, signal.SIGXFSZ, signal.SIGQUIT}
# What the runner looks at, and one byte more, so that a longer output stays too long; and the limit of standard error.
OUTPUT_LIMIT, ERROR_LIMIT, PART = 262_144 + 1, 65_536, 65_536
# A longer request waits in a file.
IN_MEMORY = 67_108_864
# Seconds that a command has to end.
ENDS_WITHIN = 20
# Milliseconds between two looks at a command, where its end can't be waited for.
LOOK = 50
# So many links in a row are followed, as by the system.
MOST_LINKS = 40
# Wrappers that run within this process, where the command is the one that lies beside this one.
BESIDE = {b"ghdl_analyse", b"ghdl_bench"}


class NoAnswer(Exception):
    """Why no answer exists."""


class Stopped(BaseException):
    """A signal came, or as SIGPIPE: nobody reads standard output any more."""

    def __init__(self, number):
        super().__init__()
        self.number = number


def raise_stopped(number, _):
    raise Stopped(number)


def take_signals():
    for number in ENDING:
        # (nohup and the like have it ignored)
        if signal.getsignal(number) != signal.SIG_IGN:
            signal.signal(number, raise_stopped)


def ignore_signals():
    for number in ENDING:
        signal.signal(number, signal.SIG_IGN)


def become(command, words):
    """Has this process be the command, over what this one hasn't read."""
    for number in (signal.SIGPIPE, signal.SIGXFSZ):
        signal.signal(number, signal.SIG_DFL)
    os.execv(command, words)


def found(name, passed_over):
    """The first command of this name in PATH that is no link to a program of these names."""
    folders = [b""] if b"/" in name else os.environb.get(b"PATH", os.defpath).split(b":")
    for folder in folders:
        path = os.path.join(folder, name)
        is_command = os.path.isabs(path) and os.path.isfile(path) and os.access(path, os.X_OK)
        if is_command and program_of(path)[1] not in passed_over:
            return path
    return None


def program_of(command):
    """Folder and name of the file to which the links of a command lead, whose folder may itself be a link."""
    try:
        for _ in range(MOST_LINKS):
            command = os.path.join(os.path.dirname(command), os.readlink(command))
    except OSError:
        # (it is no link any more)
        pass
    return os.path.split(command)


def read_request():
    """All of standard input: in memory, or in a file without a name where there is much of it."""
    data = bytearray()
    while part := os.read(0, PART):
        data += part
        if len(data) > IN_MEMORY:
            return spool(data)
    return data


def spool(data):
    import mmap

    base = os.environb.get(b"TMPDIR") or b"/tmp"
    name = os.path.join(base, b"over_cache_" + os.urandom(16).hex().encode())
    file = os.open(name, os.O_RDWR | os.O_CREAT | os.O_EXCL | os.O_CLOEXEC, 0o600)
    os.unlink(name)
    while data:
        write_all(file, data)
        data = os.read(0, PART)
    return mmap.mmap(file, 0, prot=mmap.PROT_READ)


def request_file(data):
    """A file without a name that has the request, at its beginning."""
    file = os.memfd_create("request")
    write_all(file, data)
    os.lseek(file, 0, os.SEEK_SET)
    return file


def write_all(descriptor, data):
    with memoryview(data) as view:
        at = 0
        while at < len(view):
            at += os.write(descriptor, view[at : at + 16_777_216])


def run_command(path, words, data):
    """Code, below 0 for a signal, output and standard error of a command over a request. Standard error is handed on; if it is
    too long to be kept, it is None."""
    module = module_of(path)
    return run_beside(module, words, data) if module else Command(path, words, data).run()


class Input:
    """What standard input is to a wrapper's module."""

    def __init__(self, data):
        import io

        self.buffer = io.BytesIO(data) if isinstance(data, bytearray) else data


def run_beside(module, words, data):
    """Runs a wrapper that lies beside this one within this process: a start of an interpreter takes longer than all else here."""
    from ghdl_keeper import answer_of

    sys.argv[1:], sys.stdin = map(os.fsdecode, words[1:]), Input(data)
    code, output, error = answer_of(module, __import__(module).WORK)
    hand_on(error)
    return code, output, error if len(error) <= ERROR_LIMIT else None


def module_of(command):
    """The module of a wrapper of GHDL that is the one that lies beside this one, or None."""
    folder, name = program_of(command)
    if name not in BESIDE:
        return None
    here, there = os.stat(os.path.dirname(os.fsencode(__file__))), os.stat(folder)
    return os.fsdecode(name) if (here.st_ino, here.st_dev) == (there.st_ino, there.st_dev) else None


class Command:
    """A command over a request. Its standard error is handed on at once."""

    def __init__(self, path, words, data):
        self.output, output = os.pipe()
        self.error, error = os.pipe()
        request = request_file(data)
        # (a signal may not come between the start and what ends the command by it)
        signal.pthread_sigmask(signal.SIG_BLOCK, ENDING)
        try:
            streams = [(os.POSIX_SPAWN_DUP2, pipe, at) for at, pipe in enumerate((request, output, error))]
            self.child = os.posix_spawn(path, words, os.environb, file_actions=streams, setsigmask=(), setsigdef=USUAL_AGAIN)
        except OSError as fault:
            raise NoAnswer(f"{os.fsdecode(path)}: {fault.strerror}")
        finally:
            for pipe in (request, output, error):
                os.close(pipe)
        self.texts, self.status = {self.output: b"", self.error: b""}, None

    def run(self):
        """As `run_command`; of a long output it gives the beginning."""
        try:
            signal.pthread_sigmask(signal.SIG_UNBLOCK, ENDING)
            self.take_all()
        except BaseException:
            ignore_signals()
            self.end()
            raise
        error = self.texts[self.error]
        return os.waitstatus_to_exitcode(self.status), self.texts[self.output], error if len(error) <= ERROR_LIMIT else None

    def take_all(self):
        import select

        waiting, watched = select.poll(), self.watched()
        for descriptor in (self.output, self.error, *watched):
            waiting.register(descriptor, select.POLLIN)
        waiting.register(1, 0)
        is_open = True
        while is_open or self.status is None:
            ready = dict(waiting.poll(None if watched or self.status is not None else LOOK))
            if ready.pop(1, 0):
                raise Stopped(signal.SIGPIPE)
            if self.status is None and self.take_end():
                for descriptor in watched:
                    waiting.unregister(descriptor)
            for descriptor in {self.output, self.error} & ready.keys():
                if not self.take(descriptor):
                    waiting.unregister(descriptor)
                    is_open = is_open and descriptor != self.output
        for descriptor in watched:
            os.close(descriptor)
        # (a process that it has started may hold its standard error)
        os.set_blocking(self.error, False)
        try:
            while self.take(self.error):
                pass
        except BlockingIOError:
            pass

    def watched(self):
        """By this the end of the command is seen at once, where the system can say it."""
        try:
            return [os.pidfd_open(self.child)]
        except OSError:
            return []

    def take_end(self):
        child, status = os.waitpid(self.child, os.WNOHANG)
        if child:
            self.status = status
        return bool(child)

    def take(self, descriptor):
        part = os.read(descriptor, PART)
        if descriptor == self.error:
            hand_on(part)
        limit = OUTPUT_LIMIT if descriptor == self.output else ERROR_LIMIT + 1
        self.texts[descriptor] = (self.texts[descriptor] + part)[:limit]
        return bool(part)

    def end(self):
        """Ends the command: nobody reads its output any more, and it is told so."""
        os.close(self.output)
        os.close(self.error)
        until, number = time.monotonic() + ENDS_WITHIN, signal.SIGTERM
        while self.status is None:
            if number:
                os.kill(self.child, number)
                number = None
            if self.take_end():
                break
            if time.monotonic() > until:
                until, number = float("inf"), signal.SIGKILL
            else:
                time.sleep(0.01)


def hand_on(text):
    try:
        write_all(2, text)
    except OSError:
        pass
