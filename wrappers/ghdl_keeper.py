"""A folder in TMPDIR in which GHDL runs, and a process, the keeper, that watches over both: neither GHDL nor the folder is left.

A start of GHDL takes some 20 ms, and so would the module signal (for its names of numbers): what every start does is written
without it.
"""

# The keeper exists before the folder. It starts GHDL, ends it, and removes the folder when the end of a pipe shows that the wrapper has ended.
# If the keeper is killed, the wrapper ends its session's processes and removes the folder. SIGKILL of both at once leaves both.

import _signal as signal
import errno, select, sys, time

import quick_os as os

ENDING = {signal.SIGINT, signal.SIGTERM, signal.SIGHUP}
# The code by which the runner takes a child as one that has no answer.
NO_ANSWER_CODE = 75
# Kinds of orders to the keeper: GHDL in the present folder, GHDL in the keeper's own, a hook.
HERE, INSIDE, HOOK = b"here", b"inside", b"hook"
# What the keeper ended GHDL for; PROCESSOR is the limit by which the system did. No limit, and the loss of the keeper.
OUTPUT, MEMORY, WALL, PROCESSOR, NOTHING, KEEPER = b"output", b"memory", b"wall", b"processor", b"", b"keeper"
# Seconds between two looks at GHDL: at its output, and at its memory, which it may take in no time.
LOOK, QUICK_LOOK = 0.5, 0.02
MEGABYTE = 1_048_576


class Refused(Exception):
    """A text for standard output, after which the program ends with this code."""

    def __init__(self, text, code=1):
        self.text, self.code = text, code


class NoAnswer(Exception):
    """A text for standard error: the machine is at fault, and neither the file nor the bench."""

    def __init__(self, text):
        self.text = text


class Limits:
    """Limits of GHDL: bytes of output, seconds of the processor, seconds by the clock, and megabytes; 0 means no limit."""

    def __init__(self, output, processor=0, wall=0, memory=0):
        self.output, self.processor, self.wall, self.memory = output, processor, wall, memory

    def order(self):
        return b"%d %d %d %d" % (self.output, self.processor, self.wall, self.memory)


class Room:
    """A folder of this start's own, and a keeper that runs GHDL and leaves neither GHDL nor the folder behind.

    The keeper is a process that is made before the folder. It starts GHDL by order, says how it ended, and once the orders
    end, as the wrapper has in whatever way, it ends GHDL and removes the folder. So SIGKILL leaves nothing either. Where the
    keeper itself was killed, the wrapper does both: GHDL is in the keeper's session."""

    def __init__(self, program):
        self.program, self.present = os.fsencode(program), os.getcwdb()
        base = base_folder()
        if b"\n" in base:
            raise Refused(b"%s: GHDL takes no line feed in the name of a folder: set TMPDIR to another\n" % self.program)
        self.folder = os.path.abspath(os.path.join(base, b"%s_%s" % (self.program, os.urandom(8).hex().encode())))
        orders, self.orders = os.pipe()
        self.answers, answers = os.pipe()
        # (a signal may not come between the fork and what the keeper makes of signals)
        signal.pthread_sigmask(signal.SIG_BLOCK, ENDING)
        try:
            self.keeper = os.fork()
            if self.keeper == 0:
                os.close(self.orders)
                os.close(self.answers)
                Keeper(self.folder, orders, answers).stay()
        finally:
            signal.pthread_sigmask(signal.SIG_UNBLOCK, ENDING)
        os.close(orders)
        os.close(answers)

    def make(self):
        os.mkdir(self.folder, 0o700)

    def run(self, words, said, limits, inside=False):
        """Runs GHDL with these words and its output in the file `said`: its code, below 0 for a signal, and for which limit it was
        ended. `inside` has it run in the room."""
        return self.ask(b"ghdl", INSIDE if inside else HERE, limits, said, words)

    def run_hook(self, command, variables, said, limits):
        """Runs a command of the user's shell in the present folder, as GHDL is run, with these variables, NAME=VALUE, beside those
        of the environment. Whatever it has started ends with it. Its output is added to the file `said`."""
        return self.ask(b"sh", HOOK, limits, said, [command, *variables])

    def ask(self, name, kind, limits, said, words):
        """Has the keeper start something, and waits for its end."""
        order = b"\0".join([kind, limits.order(), said, *map(os.fsencode, words)])
        waiting = select.poll()
        waiting.register(self.answers, select.POLLIN)
        waiting.register(1, 0)
        try:
            send(self.orders, order)
        except BrokenPipeError:
            return -signal.SIGKILL, KEEPER
        if self.answers not in dict(waiting.poll()):
            # nobody reads the output any more: the runner is gone
            end(signal.SIGPIPE, None)
        fault, code, why = (os.read(self.answers, 64) or b"0 %d %s" % (-signal.SIGKILL, KEEPER)).split(b" ")
        if int(fault) == errno.ENOENT:
            raise NoAnswer(b"%s: there is no command %s\n" % (self.program, name))
        if int(fault) == errno.E2BIG:
            raise Refused(b"%s: the words for %s are more than a command takes\n" % (self.program, name))
        if int(fault):
            raise NoAnswer(b"%s: %s: %s\n" % (self.program, name, os.strerror(int(fault)).encode()))
        return int(code), why

    def see_space(self, is_doubted=True):
        """Raises where the folder takes nothing more, by which GHDL may have failed. Without a doubt it looks only where little is
        left."""
        left = os.statvfs(self.folder)
        if not is_doubted and left.f_bavail * left.f_frsize > MEGABYTE:
            return
        name = os.path.join(self.folder, b"space")
        with open(name, "xb") as file:
            file.write(bytes(65_536))
        os.unlink(name)

    def leave(self):
        os.close(self.orders)
        if os.waitid(os.P_PID, self.keeper, os.WEXITED | os.WNOWAIT).si_status != 0:
            end_session(self.keeper)
            try:
                remove(self.folder)
            except OSError as fault:
                put(2, b"%s: %s stays: %s\n" % (self.program, self.folder, fault.strerror.encode()))
        os.waitpid(self.keeper, 0)


def base_folder():
    return os.environb.get(b"TMPDIR") or b"/tmp"


def send(pipe, data):
    data = len(data).to_bytes(4, "little") + data
    while data:
        data = data[os.write(pipe, data) :]


class Keeper:
    """The process beside the wrapper: see `Room`."""

    def __init__(self, folder, orders, answers):
        self.folder, self.orders, self.answers = folder, orders, answers
        self.child, self.why, self.end_left = None, NOTHING, lambda: None

    def stay(self):
        """Runs until the orders end, and never returns."""
        code = 1
        try:
            try:
                self.settle()
                self.obey()
            finally:
                self.end_child()
                remove(self.folder)
            code = 0
        finally:
            os._exit(code)

    def settle(self):
        # (the signals of a terminal are for the wrapper, and the runner reads the outputs to their ends)
        os.setsid()
        nothing = os.open(os.devnull, os.O_RDWR)
        for number in (0, 1, 2):
            os.dup2(nothing, number)
        for number in ENDING:
            signal.signal(number, signal.SIG_IGN)
        self.woken, wakes = os.pipe()
        os.set_blocking(wakes, False)
        signal.signal(signal.SIGCHLD, lambda *_: None)
        signal.set_wakeup_fd(wakes)
        signal.pthread_sigmask(signal.SIG_UNBLOCK, ENDING | {signal.SIGCHLD})

    def obey(self):
        """Follows orders, and says how GHDL has ended."""
        waiting = select.poll()
        waiting.register(self.orders, select.POLLIN)
        waiting.register(self.woken, select.POLLIN)
        while True:
            ready = dict(waiting.poll(self.look() if self.child else None))
            if self.woken in ready:
                os.read(self.woken, 1)
                if self.child and os.waitid(os.P_PID, self.child, os.WEXITED | os.WNOWAIT | os.WNOHANG):
                    self.answer_for_child()
            if self.orders in ready:
                if (order := self.order()) is None:
                    return
                self.start(*order.split(b"\0"))

    def look(self):
        """Ends GHDL where it takes too much. Gives the milliseconds until the next look."""
        left = LOOK
        if self.limits.memory:
            left = QUICK_LOOK
            if resident(self.child) > self.limits.memory * MEGABYTE:
                self.stop(MEMORY)
        if self.limits.processor and seconds_of(self.child) > self.limits.processor + 1:
            # (it has passed over the signal by which the system ends it)
            self.stop(PROCESSOR)
        if self.limits.wall:
            left = min(left, max(0, self.deadline - time.monotonic()) + 0.001)
            if time.monotonic() >= self.deadline:
                self.stop(WALL)
        if length_of(self.said) > self.limits.output:
            self.stop(OUTPUT)
        return left * 1000

    def stop(self, why):
        self.why = self.why or why
        self.kill_child()

    def kill_child(self):
        try:
            os.killpg(self.child, signal.SIGKILL)
        except ProcessLookupError:
            # (it was killed before it had a group)
            pass

    def order(self):
        """The next order, or None where they have ended."""
        length, data = self.take(4), b""
        if len(length) == 4:
            wanted = int.from_bytes(length, "little")
            data = self.take(wanted)
            if len(data) == wanted:
                return data
        return None

    def take(self, count):
        taken = b""
        while len(taken) < count and (part := os.read(self.orders, count - len(taken))):
            taken += part
        return taken

    def start(self, kind, limits, said, *words):
        usual = {"setsigmask": (), "setsigdef": ENDING | {signal.SIGCHLD, signal.SIGPIPE}, "setpgroup": 0}
        # (a hook adds to what earlier ones printed)
        anew = os.O_TRUNC if kind != HOOK else 0
        outputs = [(os.POSIX_SPAWN_OPEN, 1, said, os.O_WRONLY | os.O_CREAT | os.O_APPEND | anew, 0o666),
                   (os.POSIX_SPAWN_DUP2, 1, 2)]
        self.limits, self.said, self.why = Limits(*map(int, limits.split())), said, NOTHING
        self.deadline = time.monotonic() + self.limits.wall
        try:
            if kind == INSIDE:
                os.chdir(self.folder)
            elif kind == HOOK:
                self.prepare_hook()
            command, given = of_hook(*words) if kind == HOOK else of_ghdl(*words)
            self.child = os.posix_spawnp(command[0], command, given, file_actions=outputs, **usual)
            if self.limits.processor:
                limit_processor(self.child, self.limits.processor)
        except OSError as fault:
            self.end_child()
            self.answer(fault.errno, 0)

    def prepare_hook(self):
        from hook_processes import end_children, take_orphans

        take_orphans()
        self.end_left = end_children

    def answer_for_child(self):
        code, seconds, peak = self.end_child()
        if self.limits.memory and peak > self.limits.memory * MEGABYTE:
            # (it took that between two looks)
            self.why = self.why or MEMORY
        elif code == -signal.SIGXCPU and self.limits.processor and seconds > self.limits.processor / 2:
            # (the system counts ticks for the limit, which on a loaded machine are far more than what it took)
            self.why = self.why or PROCESSOR
        elif length_of(self.said) > self.limits.output:
            self.why = self.why or OUTPUT
        self.answer(0, code)

    def answer(self, fault, code):
        try:
            os.write(self.answers, b"%d %d %s" % (fault, code, self.why))
        except BrokenPipeError:
            pass

    def end_child(self):
        """Ends GHDL with all that it has started. Gives the code with which it had ended, its seconds of the processor, and the most
        bytes of memory that it held; both are 0 where nothing limits them."""
        if self.child:
            self.kill_child()
            seconds = peak = 0
            if self.limits.processor or self.limits.memory:
                # (`wait4` imports a module, which takes as long as a start of GHDL by the keeper)
                _, status, used = os.wait4(self.child, 0)
                seconds, peak = used.ru_utime + used.ru_stime, used.ru_maxrss * 1024
            else:
                _, status = os.waitpid(self.child, 0)
            self.child = None
            self.end_left()
            return os.waitstatus_to_exitcode(status), seconds, peak


def of_ghdl(*words):
    """GHDL's command, and its environment."""
    path = os.environb.get(b"PATH", os.defpath)
    return [command_in(path), *words], {b"PATH": path}


def of_hook(command, *variables):
    """The command of a hook, and its environment."""
    return [b"sh", b"-c", command], {**os.environb, **dict(variable.split(b"=", 1) for variable in variables)}


def command_in(path):
    """GHDL's command. Where it is Debian's script, which starts the first code generator of several that lies beside it, that is
    started itself: the script takes a third of the time of GHDL's own start."""
    for folder in path.split(b":"):
        command = (folder or b".") + b"/ghdl"
        if os.access(command, os.X_OK) and not os.path.isdir(command):
            is_script = os.access(command + b"-mcode", os.X_OK) and first_bytes(command) == b"#!"
            return command + b"-mcode" if is_script else command
    return b"ghdl"


def first_bytes(path):
    file = os.open(path, os.O_RDONLY)
    try:
        return os.read(file, 2)
    finally:
        os.close(file)


def limit_processor(child, seconds):
    # (most starts don't need it, and it takes its time)
    import resource

    _, most = resource.prlimit(child, resource.RLIMIT_CPU)
    resource.prlimit(child, resource.RLIMIT_CPU, (seconds if most == resource.RLIM_INFINITY else min(seconds, most), most))


def length_of(path):
    try:
        return os.stat(path).st_size
    except OSError:
        # (somebody has removed it)
        return 0


def state_of(process):
    """What the system says of a process from its state on, or nothing where it has ended."""
    try:
        with open(f"/proc/{process}/stat", "rb") as file:
            return file.read().rpartition(b")")[2].split()
    except OSError:
        return []


def seconds_of(process):
    """The seconds of the processor that a process has taken."""
    ticks = state_of(process)[11:13]
    return sum(map(int, ticks)) / os.sysconf("SC_CLK_TCK")


def resident(process):
    """The bytes of memory that a process has now."""
    pages = state_of(process)[21:22]
    return sum(map(int, pages)) * os.sysconf("SC_PAGE_SIZE")


def in_session(leader):
    """The processes of a session that run, but its leader."""
    for process in map(int, filter(str.isdigit, os.listdir("/proc"))):
        state, _, _, session, *_ = state_of(process) or (b"X", 0, 0, 0)
        if int(session) == leader != process and state not in b"ZX":
            yield process


def end_session(leader):
    """Ends what a killed keeper has left, which may be starting something."""
    until = time.monotonic() + 10
    while (left := list(in_session(leader))) and time.monotonic() < until:
        for process in left:
            try:
                os.kill(process, signal.SIGKILL)
            except ProcessLookupError:
                pass
        time.sleep(0.005)


def remove_within(folder):
    """Empties a folder. Links are removed and not followed."""
    folders = [folder]
    for path in folders:
        with os.scandir(path) as entries:
            for entry in entries:
                if entry.is_dir(follow_symlinks=False):
                    folders.append(entry.path)
                else:
                    os.unlink(entry.path)
    for path in reversed(folders[1:]):
        os.rmdir(path)


def remove(folder):
    """Removes a folder with its content, if it exists."""
    os.chdir("/")
    try:
        remove_within(folder)
        os.rmdir(folder)
    except FileNotFoundError:
        pass


def end(number, _):
    """Ends the program by a signal; a second one changes nothing."""
    ignore_signals()
    raise SystemExit(128 + number)


def ignore_signals():
    for number in ENDING:
        signal.signal(number, signal.SIG_IGN)


def in_room(program, work):
    room = Room(program)
    try:
        try:
            return work(room)
        finally:
            ignore_signals()
    finally:
        room.leave()


def drain():
    """Reads the rest of the input: the runner writes everything before it reads."""
    while sys.stdin.buffer.read(65_536):
        pass


def answer_of(program, work):
    """The code that `work` gives over a room, standard output and standard error."""
    for number in ENDING:
        # (nohup and the like have it ignored)
        if signal.getsignal(number) != signal.SIG_IGN:
            signal.signal(number, end)
    try:
        return in_room(program, work)
    except Refused as refused:
        return refused.code, refused.text, b""
    except NoAnswer as fault:
        return NO_ANSWER_CODE, b"", fault.text
    except MemoryError:
        return 1, b"%s: out of memory\n" % program.encode(), b""
    except OSError as fault:
        # (of the folder in TMPDIR, or of a start of a process: what else is opened is refused by name)
        where = b"" if fault.errno in (errno.EAGAIN, errno.ENOMEM) else b" (TMPDIR is %s)" % base_folder()
        return NO_ANSWER_CODE, b"", b"%s: %s%s\n" % (program.encode(), fault.strerror.encode(), where)


def run_program(program, work):
    """Ends the program with the code that `work` gives over a room, after it has put its standard output and error."""
    code, output, warnings = answer_of(program, work)
    drain()
    put(2, warnings)
    put(1, output)
    # (what the interpreter does at its end would take as long as what the program has done)
    os._exit(code)


def fault_of(fault, name):
    """What a fault of the system says, with the name that it is about, else this one."""
    named = fault.filename if fault.filename is not None else name
    return b"%s: %s\n" % (os.fsencode(named), fault.strerror.encode())


def put(descriptor, data):
    """Writes all, or as much as somebody takes."""
    try:
        while data:
            data = data[os.write(descriptor, data) :]
    except OSError as fault:
        if fault.errno not in (errno.EPIPE, errno.EBADF):
            raise
