"""Tries wrappers/ghdl_analyse and wrappers/ghdl_bench on a machine that is at fault, alone and over wrappers/over_engine: 75 is
answered where nothing says that the file or the bench is wrong, and never 1. Works in the present folder."""

import os, resource, signal, struct, subprocess, sys
from concurrent.futures import ThreadPoolExecutor

from bench_requests import SIMULATOR, Run, build
from compile_requests import WRAPPER, WRAPPERS, compile_one, fields
from ghdl_bench_texts import WHOLE, ending

NO_ANSWER = 75
TMP = os.path.abspath("tmp")
os.mkdir(TMP)
os.environ["TMPDIR"] = TMP
PACKAGE = b"package p is\n  constant c : integer := 1;\nend package p;\n"
USER = b"use work.p.all;\npackage q is\n  constant d : integer := c;\nend package q;\n"
built = build([(b"lib", b"p.vhd", PACKAGE)])
COMPILE = b"".join(fields(b"lib", b"q.vhd", USER, built))
ARTEFACT = compile_one(COMPILE)[1]
BENCH = Run(build([(b"tb_lib", b"tb.vhd", WHOLE.encode())]), b"tb_lib", b"tb", b"sim", [])
REQUESTS = {"ghdl_analyse": COMPILE, "ghdl_bench": BENCH.request()}


def command(folder, name, text):
    os.makedirs(folder, exist_ok=True)
    with open(f"{folder}/{name}", "w") as file:
        file.write("#!/bin/sh\n" + text)
    os.chmod(f"{folder}/{name}", 0o755)
    return os.path.abspath(folder)


def path_of(*folders):
    return os.pathsep.join([*folders, os.environ["PATH"]])


class Way:
    """How a wrapper is started: in a folder of its own, alone or by over_engine, whose other side has other variables."""

    def __init__(self, name, over_engine):
        self.folder, self.over_engine = os.path.abspath(name), over_engine
        os.mkdir(self.folder)

    def start(self, wrapper, there):
        """Code and output of a wrapper where these variables count."""
        os.makedirs(os.path.join(self.folder, os.fsdecode(BENCH.folder)), exist_ok=True)
        if os.path.exists(results := os.path.join(self.folder, os.fsdecode(BENCH.results))):
            os.remove(results)
        variables, words = {**os.environ, **there}, [os.path.join(WRAPPERS, wrapper)]
        if self.over_engine:
            # (the fault is the command's alone)
            given = "".join(f"export {name}='{value}'\n" for name, value in there.items())
            node = command(f"{self.folder}/node", wrapper, f'{given}exec {words[0]} "$@"\n')
            engine = os.path.join(command(f"{self.folder}/engine", "engine", f'PATH={node}:$PATH exec "$@"\n'), "engine")
            variables = {**os.environ, "OVER_ENGINE": engine, "PATH": path_of(WRAPPERS)}
            words = [os.path.join(WRAPPERS, "over_engine"), wrapper]
        ran = subprocess.run(words, input=REQUESTS[wrapper], capture_output=True, cwd=self.folder, env=variables)
        return ran.returncode, ran.stdout, ran.stderr

    def verdict(self):
        try:
            with open(os.path.join(self.folder, os.fsdecode(BENCH.results)), "rb") as file:
                return b"test_suite_done" in file.read()
        except FileNotFoundError:
            return False


def is_named(ran, why):
    code, output, said = ran
    return code == NO_ANSWER and output == b"" and why in said


def rows():
    """Wrapper, variables, and what has to be so of code, output and standard error."""
    python = os.path.abspath("python")
    os.mkdir(python)
    os.symlink(sys.executable, f"{python}/python3")
    for name in ("cat", "readlink"):
        os.symlink(f"/bin/{name}", f"{python}/{name}")
    for wrapper in REQUESTS:
        yield wrapper, {"TMPDIR": "/nowhere"}, lambda ran: is_named(ran, b"No such file or directory")
        yield wrapper, {"PATH": python}, lambda ran: is_named(ran, b"there is no command ghdl")
        for number in (signal.SIGKILL, signal.SIGTERM, signal.SIGINT, signal.SIGHUP, signal.SIGXCPU, signal.SIGSEGV, signal.SIGABRT):
            folder = command(f"ghdl_by_{number:d}", "ghdl", f"echo its own words\nkill -{number:d} $$\n")
            said = b"GHDL was ended by signal %d\n" % number
            if wrapper == "ghdl_bench":
                said = "its own words\n" + ending(WHOLE, "tb_lib.tb", "ghdl_bench: " + said.decode())
                wanted = 128 + number, said.encode()
                yield wrapper, {"PATH": path_of(folder)}, lambda ran, wanted=wanted: ran[:2] == wanted
            elif number in (signal.SIGSEGV, signal.SIGABRT):
                wanted = 1, b"ghdl_analyse: " + said + b"its own words\n"
                yield wrapper, {"PATH": path_of(folder)}, lambda ran, wanted=wanted: ran[:2] == wanted
            else:
                yield wrapper, {"PATH": path_of(folder)}, lambda ran, said=said: is_named(ran, said)


def try_rows(over_engine):
    def one(at, row):
        wrapper, there, holds = row
        ran = Way(f"{'over' if over_engine else 'alone'}_{at}", over_engine).start(wrapper, there)
        assert holds(ran), f"{wrapper} over {there}, over_engine {over_engine}: {ran}"

    with ThreadPoolExecutor(16) as threads:
        list(threads.map(one, range(len(ROWS)), ROWS))


def fill(folder, pages):
    """Leaves this number of pages of a file system free."""
    free = os.statvfs(folder)
    with open(f"{folder}/filler", "wb") as file:
        file.write(bytes((free.f_bavail - pages) * free.f_frsize))


def full_disk():
    """With more and more space there is no answer, and then the right one; a wrong one never comes."""
    small = os.path.abspath("small")
    os.mkdir(small)
    if subprocess.run(["mount", "-t", "tmpfs", "-o", "size=1m", "none", small], capture_output=True).returncode != 0:
        print("not tried: a full TMPDIR, since none could be mounted")
        return
    try:
        for over_engine in (False, True):
            way = Way(f"full_{over_engine}", over_engine)
            for wrapper in REQUESTS:
                # (over an engine there are three tries, with pauses)
                for pages in (1, 40) if over_engine else (*range(16), 40):
                    fill(small, pages)
                    code, output, said = way.start(wrapper, {"TMPDIR": small})
                    os.remove(f"{small}/filler")
                    assert not os.listdir(small), (pages, os.listdir(small))
                    if code == NO_ANSWER and pages < 40:
                        assert output == b"" and (over_engine or b"No space left on device" in said), (pages, output, said)
                        continue
                    wanted = ARTEFACT if wrapper == "ghdl_analyse" else output
                    assert (code, output) == (0, wanted), f"{wrapper}, {pages} pages, {over_engine}: {(code, output, said)}"
                    assert pages > 0 and (wrapper == "ghdl_analyse" or way.verdict()), (wrapper, pages, over_engine)
    finally:
        subprocess.run(["umount", small], check=True)


def long_line():
    """4 MB in one line, with errors: GHDL shows the line in each of them. The wrapper gets 100 MB, and GHDL all."""
    begin, constant, last = b"package p is ", b"constant c%d : integer := %d + missing; ", b"end;\n"
    text = bytearray(begin)
    while len(text) < 4_194_304 - 100:
        text += constant % (len(text), len(text))
    folder = command("all_memory", "ghdl", f'ulimit -S -v unlimited\nPATH={os.environ["PATH"]} exec ghdl "$@"\n')
    most = resource.getrlimit(resource.RLIMIT_AS)[1]
    code, output, said = compile_one(b"".join(fields(b"lib", b"p.vhd", bytes(text + last))),
                                     env={**os.environ, "PATH": path_of(folder)},
                                     preexec_fn=lambda: resource.setrlimit(resource.RLIMIT_AS, (100_000_000, most)))
    assert code == 1 and len(output) < 300_000, (code, len(output), output[:300], said)
    assert b'p.vhd:1:45: no declaration for "missing"\n' in output[:300], output[:300]


ROWS = list(rows())
try_rows(False)
try_rows(True)
full_disk()
long_line()
assert not os.listdir(TMP), os.listdir(TMP)
