"""Kills the keeper, the wrapper or GHDL alone, at random moments of a compile and of a bench without end: no process and no
folder is left, and the next start gives the right answer. Works in the present folder."""

import os, random, signal, subprocess, time

from bench_requests import SIMULATOR, Run, build
from compile_requests import WRAPPER, compile_one, fields
from ghdl_bench_texts import ENDLESS, ending
from ghdl_left import MARK, left, see_nothing

TMP = os.path.abspath("tmp")
os.mkdir(TMP)
os.environ["TMPDIR"] = TMP
PACKAGE = b"package p is\n  constant c : integer := 1;\nend package p;\n"
COMPILE = b"".join(fields(b"lib", b"p.vhd", PACKAGE))
ARTEFACT = compile_one(COMPILE)[1]
BENCH = Run(build([(b"tb_lib", b"tb.vhd", ENDLESS.encode())]), b"tb_lib", b"tb", b"sim", [b"no time"])
KEEPER_LOST, GHDL_LOST = (ending(ENDLESS, "tb_lib.tb.no=20time", said).encode() for said in (
    "ghdl_bench: the process that watches over GHDL was ended, and GHDL with it\n", "ghdl_bench: GHDL was ended by signal 9\n"))
chance = random.Random(9)


def child_of(parent):
    """A child of this process, or None."""
    for name in filter(str.isdigit, os.listdir("/proc")):
        try:
            with open(f"/proc/{name}/stat", "rb") as file:
                state, above = file.read().rpartition(b")")[2].split()[:2]
        except OSError:
            continue
        if int(above) == parent and state != b"Z":
            return int(name)
    return None


def victim_of(wrapper, which):
    """The number of the wrapper, of its keeper, or of the keeper's GHDL, or None where that isn't there."""
    process = wrapper
    for _ in range(("wrapper", "keeper", "GHDL").index(which)):
        process = process and child_of(process)
    return process


def command(folder, text):
    """A command ghdl in a new folder."""
    os.mkdir(folder)
    with open(f"{folder}/ghdl", "w") as file:
        file.write("#!/bin/sh\n" + text)
    os.chmod(f"{folder}/ghdl", 0o755)


def start(program, words, request, **settings):
    child = subprocess.Popen([program, *words], stdin=subprocess.PIPE, stdout=subprocess.PIPE, stderr=subprocess.PIPE, **settings)
    try:
        child.stdin.write(request)
        child.stdin.close()
    except BrokenPipeError:
        pass
    return child


def kill(child, which, moment):
    """Kills one of the three after a number of seconds, or as soon as it runs. Tells whether it did."""
    time.sleep(moment)
    until = time.monotonic() + 5
    while (victim := victim_of(child.pid, which)) is None and child.poll() is None and time.monotonic() < until:
        time.sleep(0.001)
    if victim is None or child.poll() is not None:
        return False
    try:
        os.kill(victim, signal.SIGKILL)
    except ProcessLookupError:
        return False
    return True


def ended(child):
    """Its code, and its output."""
    output, said = child.stdout.read(), child.stderr.read()
    return child.wait(20), output, said


def kill_compiles():
    """GHDL takes a while here, so that each of the three is there to be killed."""
    command("slow", f"sleep 0.2\nPATH={os.environ['PATH']} exec ghdl \"$@\"\n")
    killed = dict.fromkeys(("keeper", "wrapper", "GHDL"), 0)
    for number in range(36):
        which = list(killed)[number % 3]
        child = start(WRAPPER, [], COMPILE, env={**os.environ, "PATH": os.path.abspath("slow") + os.pathsep + os.environ["PATH"]})
        was_killed = kill(child, which, chance.uniform(0, 0.3))
        code, output, said = ended(child)
        killed[which] += was_killed
        right = (0, ARTEFACT), (75, b"")
        assert (code, output) in right or was_killed and which == "wrapper" and code == -signal.SIGKILL, (which, code, output, said)
        see_nothing(f"a compile without its {which}")
    assert min(killed.values()) >= 3, killed
    assert compile_one(COMPILE) == (0, ARTEFACT, b"")


def kill_benches():
    for which in ("keeper", "wrapper", "GHDL"):
        for moment in ("running", *(chance.uniform(0, 0.2) for _ in range(7))):
            BENCH.prepare()
            child = start(SIMULATOR, [MARK], BENCH.request())
            while moment == "running" and not os.path.exists(BENCH.results):
                time.sleep(0.01)
            if moment == "running":
                assert sum(b"runner_cfg" in words for words in left() if isinstance(words, bytes)) == 1
            assert kill(child, which, 0 if moment == "running" else moment), (which, moment)
            code, output, said = ended(child)
            wanted = {"keeper": [(1, KEEPER_LOST)], "wrapper": [(-signal.SIGKILL, b"")],
                      "GHDL": [(128 + signal.SIGKILL, GHDL_LOST)]}[which]
            # (a keeper that was killed before it was told anything)
            assert (code, output) in wanted, (which, moment, code, output, said)
            see_nothing(f"a bench without its {which}, {moment}")


def leave_links():
    """What GHDL leaves in its folder goes with that, and what a link leads to stays."""
    os.makedirs("victim/inner")
    with open("victim/inner/file", "w") as file:
        file.write("it stays\n")
    victim = os.path.abspath("victim")
    command("leaves", f"ln -s {victim} link\nln -s nowhere dangling\nmkdir -p a/b/c\nln -s {victim}/inner a/b/c/link\n"
                      "mkfifo pipe\n: >a/file\nln -s . a/b/loop\nexit 3\n")
    for program, request in (WRAPPER, COMPILE), (SIMULATOR, BENCH.request()):
        BENCH.prepare()
        ran = subprocess.run([program], input=request, capture_output=True,
                             env={**os.environ, "PATH": os.pathsep.join([os.path.abspath("leaves"), os.environ["PATH"]])})
        assert ran.returncode in (1, 3), ran
        see_nothing("links")
        with open("victim/inner/file") as file:
            assert file.read() == "it stays\n"
        for name in ("link", "dangling", "pipe"):
            # (a bench runs in the present folder)
            if os.path.lexists(name):
                os.remove(name)


kill_compiles()
kill_benches()
leave_links()
