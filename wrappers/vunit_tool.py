"""What the tools share that run vunit_run: which program they run, which tests a project has, and which words it names."""

import gc, json, os, shutil, signal, subprocess, sys, tempfile

from toml_text import TomlFault, read_toml
from tool_folder import ToolFolder

# Statuses of the program that tools give too: of a fault in what they were given, of wrong words, of a fault outside.
REFUSED, WRONG, OUTSIDE = 1, 2, 3
# What compiles and simulates where a project names nothing: a part of the program.
OWN_WORDS = ["@self"]


class ToolFault(Exception):
    """What a tool says on standard error before it ends with a status."""

    def __init__(self, text, status=REFUSED):
        super().__init__(text)
        self.status = status


class Handed(Exception):
    """What the program said on standard output where it refused the project, and its status: a tool hands both on."""

    def __init__(self, said, status):
        super().__init__()
        self.said, self.status = said, status if status >= 0 else 128 - status


def program(tool):
    """The program that VUNIT_RUN names, unless that is this tool itself; else vunit_run. VUNIT_RUN is taken out of the
    environment, so that a tool which is run so runs vunit_run: a chain of tools has an end."""
    named = os.environ.pop("VUNIT_RUN", None)
    found = shutil.which(named) if named else None
    own = os.path.join(os.path.dirname(os.path.realpath(__file__)), tool)
    return "vunit_run" if not named or found and os.path.realpath(found) == own else named


def started(words, **settings):
    """A started process, or the fault by name."""
    try:
        return subprocess.Popen(words, **settings)
    except OSError as fault:
        raise ToolFault(f"{words[0]}: {fault.strerror}", OUTSIDE) from None


class Test:
    """A test of a project: its full name, and that name cut into library, bench and case."""

    def __init__(self, name):
        self.name = name
        self.library, _, rest = name.partition(".")
        end = end_of_name(rest)
        self.bench, self.case = f"{self.library}.{rest[:end]}", rest[end + 1 :]


def end_of_name(text):
    """Where the name of a bench ends that a text begins with: an extended one has its backslash twice inside."""
    if not text.startswith("\\"):
        return text.find(".")
    at = 1
    while (at := text.find("\\", at)) >= 0 and text[at + 1 : at + 2] == "\\":
        at += 2
    return at + 1


def exported(run, words=()):
    """The export of a project's tests, as the program writes it. Where it refuses, that is handed on. Its warnings aren't shown, as
    they come again with what is run next; other lines are, as those of a launcher that builds the program."""
    with ToolFolder("vunit_tool") as folder:
        path = os.path.join(folder, "tests.json")
        with tempfile.TemporaryFile(dir=folder) as said:
            child = started([run, f"--export-json={path}", *words], stdin=subprocess.DEVNULL, stdout=said, stderr=subprocess.PIPE)
            for line in child.stderr:
                if not line.startswith(b"vunit_run: warning: "):
                    tell_line(line)
            if child.wait() != 0:
                said.seek(0)
                raise Handed(said.read(), child.returncode)
        with open(path, encoding="utf-8") as file:
            return json.load(file)


def project_words(key):
    """The words of the compiler or of the simulator, which the project in the present folder names by this key."""
    try:
        with open("vunit.toml", "rb") as file:
            project = read_toml(file.read())
    except FileNotFoundError:
        return OWN_WORDS
    except OSError as fault:
        raise ToolFault(f"vunit.toml: {fault.strerror}", OUTSIDE) from None
    except TomlFault as fault:
        raise ToolFault(f"vunit.toml:{fault}") from None
    words = project.get(key, OWN_WORDS)
    if not (isinstance(words, list) and words and all(isinstance(word, str) for word in words)):
        raise ToolFault(f"vunit.toml: wrong value of {key}")
    return words


def shown(text):
    """A text in one line of standard error: what isn't visible is `?`."""
    return "".join(letter if letter.isprintable() else "?" for letter in text)


def put(text):
    """Puts bytes on standard output, before anything else is written."""
    sys.stdout.buffer.write(text)
    sys.stdout.buffer.flush()


def tell(name, text):
    """Puts a line on standard error."""
    tell_line(f"{name}: {shown(text)}\n".encode(errors="replace"))


def tell_line(line):
    """Puts a line on standard error in one write, if that takes it."""
    try:
        os.write(2, line)
    except OSError:
        # (no result depends on these lines)
        pass


def run_tool(name, usage, work):
    """Ends the program with the status that `work` gives over its words."""
    words = sys.argv[1:]
    # (a wrapper is too short for it)
    gc.enable()
    try:
        if words[:1] in (["--help"], ["-h"]):
            put(usage.encode())
            status = 0
        else:
            status = work(words)
    except ToolFault as fault:
        tell(name, str(fault))
        status = fault.status
    except Handed as handed:
        put(handed.said)
        status = handed.status
    except KeyboardInterrupt:
        signal.signal(signal.SIGINT, signal.SIG_DFL)
        os.kill(os.getpid(), signal.SIGINT)
    except BrokenPipeError:
        # (nobody reads the output)
        status = 128 + signal.SIGPIPE
        os.dup2(os.open(os.devnull, os.O_WRONLY), 1)
    except OSError as fault:
        tell(name, f"{fault.filename or 'standard output'}: {fault.strerror}")
        status = OUTSIDE
    sys.exit(status)
