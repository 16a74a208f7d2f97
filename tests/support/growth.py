"""Whether a run takes time that grows as what it is given does, in memory in proportion to that."""
import os, subprocess, tempfile

from told import without_told
from trial import PROGRAM, fail, project

# The least time of a number of rounds counts.
ROUNDS = 9
# What the program needs to start doesn't count: seconds, and bytes of memory.
START, START_MEMORY = 0.2, 8 << 20
# A run may have this number of bytes of memory for each byte of its input, and those of its output besides.
FOR_A_BYTE = 100
SECONDS = 60


def measured(words, memory, folder="project"):
    """Status, output and error of a run in a folder with limited memory, and its seconds of processor time."""
    limited = f'ulimit -v {memory // 1024}; exec timeout -s KILL {SECONDS} "$0" "$@"'
    with tempfile.TemporaryFile() as out, tempfile.TemporaryFile() as error:
        ran = subprocess.Popen(["sh", "-c", limited, PROGRAM, *words], cwd=folder, stdin=subprocess.DEVNULL, stdout=out, stderr=error)
        status, used = os.wait4(ran.pid, 0)[1:]
        ran.returncode = os.waitstatus_to_exitcode(status)
        out.seek(0)
        error.seek(0)
        return (ran.returncode, out.read(), without_told(error.read())), used.ru_utime + used.ru_stime


def checked(name, wanted, given, *words, folder="project"):
    """The seconds of a run over input of this size, with this status, output and error; or nothing."""
    status, out, error = wanted
    wanted = status, out.encode(), error.encode()
    ran, seconds = measured(words, FOR_A_BYTE * given + len(out) + START_MEMORY, folder)
    if ran == wanted:
        return seconds
    fail(name, f"it is {cut(ran)} after {seconds:.2f} seconds\nand not {cut(wanted)}")
    return None


def cut(answer):
    """An answer that can be shown."""
    status, out, error = answer
    return status, out[:200], out[-200:], error[:200]


def in_step(name, run, larger):
    """Four times as much takes at most five times as long: each gives the seconds of a run, or nothing where it has failed. Both
    run by turns until that is so."""
    least = [float("inf")] * 2
    for _ in range(ROUNDS):
        for at, work in enumerate((run, larger)):
            seconds = work()
            if seconds is None:
                return
            least[at] = min(least[at], seconds)
        if least[1] <= 5 * least[0] + START:
            return
    fail(name, f"it takes {least[0]:.2f} seconds, and four times as much {least[1]:.2f}")


def grows(name, make, sizes, *words):
    """Runs the program over what is made of each of two sizes, of which one is four times the other: the files of a project, and
    the status, output and error of a run."""
    def work(size, files, *wanted):
        def run():
            project("project", files)
            return checked(f"{name} of {size}", wanted, sum(map(len, files.values())), *words)
        return run
    in_step(name, *(work(size, *make(size)) for size in sizes))
