"""What the tests in Python share: projects in new folders, runs of the program, and the compiler that keeps its requests."""
import hashlib, json, os, shutil, subprocess, sys

import store_reader
from told import without_told

PROGRAM = os.environ["VUNIT_RUN"]
COMPILER = ["sh", os.path.join(os.environ["TOP"], "tests", "support", "compiler.sh")]
failures = []


def fail(name, said):
    """Notes a failure, and shows the first ones."""
    failures.append(name)
    if len(failures) <= 5:
        print(f"{name}: {said}"[:3000])


def end():
    """Ends the test."""
    if len(failures) > 5:
        print(f"and {len(failures) - 5} failures more")
    sys.exit(1 if failures else 0)


def write(folder, files):
    """Makes files: a dictionary from paths to texts."""
    for path, text in files.items():
        path = os.path.join(folder, path)
        os.makedirs(os.path.dirname(path), exist_ok=True)
        with open(path, "wb") as file:
            file.write(text if isinstance(text, bytes) else text.encode())


def project(folder, files):
    """Makes a folder anew with these files."""
    shutil.rmtree(folder, ignore_errors=True)
    os.mkdir(folder)
    write(folder, files)


def toml(libraries, compiler=None, options={}, more=""):
    """The text of a vunit.toml: its libraries are a dictionary from names to lists of patterns."""
    text = more + ("compiler = " + json.dumps(compiler) + "\n" if compiler else "")
    for name, patterns in libraries.items():
        text += f"\n[[library]]\nname = {json.dumps(name)}\nfiles = {json.dumps(patterns)}\n"
        if name in options:
            text += f"options = {json.dumps(options[name])}\n"
    return text


def package(name, *uses):
    """A package over others, each of which is `LIBRARY.PACKAGE`."""
    text = ""
    for use in uses:
        library = use.split(".")[0]
        text += (f"library {library};\n" if library != "work" else "") + f"use {use}.all;\n"
    return text + f"package {name} is\nend package {name};\n"


def environment(requests=None, delay=None):
    """The environment of a run, whose compiler keeps its requests in this folder, which is made anew."""
    given = dict(os.environ)
    if requests is not None:
        shutil.rmtree(requests, ignore_errors=True)
        os.makedirs(requests)
        given["REQUESTS"] = os.path.abspath(requests)
    if delay is not None:
        given["DELAY"] = str(delay)
    return given


def run(folder, *words, env=None, seconds=120, before=()):
    """Status, standard output and standard error of a run in a folder, this without the lines that program_messages tries. The
    words before it are a command that starts it."""
    try:
        ran = subprocess.run([*before, PROGRAM, *words], cwd=folder, env=env, stdin=subprocess.DEVNULL, capture_output=True, timeout=seconds)
    except subprocess.TimeoutExpired:
        return None, b"", b"it ran for %d seconds\n" % seconds
    return ran.returncode, ran.stdout, without_told(ran.stderr)


def expect(name, folder, status, text, *words, error="", env=None, seconds=120, before=()):
    """Runs the program, and compares status, standard output and standard error. Tells whether they are as wanted."""
    wanted = status, text.encode(), error.encode()
    ran = run(folder, *words, env=env, seconds=seconds, before=before)
    if ran != wanted:
        fail(name, f"it is {ran}\nand not {wanted}")
    return ran == wanted


def requests_in(folder):
    """The whole requests that were kept in a folder, by the time of the start."""
    found = []
    for name in sorted(os.listdir(folder)):
        if not name.endswith(".part"):
            with open(os.path.join(folder, name), "rb") as file:
                data = file.read()
            if store_reader.read_request(data) is not None:
                found.append(data)
    return found


def started_in(folder):
    """The libraries and paths of these requests."""
    return [store_reader.read_request(data)[:2] for data in requests_in(folder)]


def artefact_of(request):
    """What the compiler gives for a request, or None where it refuses the file."""
    return None if b"-- child: refuse " in request else hashlib.sha256(request).hexdigest().encode() + b"  -\n"


def stale_of(folder, records=None):
    """The libraries and paths of the files that a build by this compiler compiles, in compile order."""
    graph = store_reader.graph_of(folder)
    compiled, _ = store_reader.built_over(graph, store_reader.records_of(folder) if records is None else records, artefact_of)
    return [graph[at][:2] for at in compiled]


def is_true(record):
    """Whether the compiler gives the artefact of a record for its request."""
    return artefact_of(store_reader.request_of(record.asked)) == record.artefact


def build_text(names):
    """What a build prints that compiled these files."""
    if not names:
        return "Re-compile not needed\n"
    lines = [f"Compiling into {library.decode()}: {path.decode()} passed\n" for library, path in names]
    return "".join(lines) + "Compile passed\n"
