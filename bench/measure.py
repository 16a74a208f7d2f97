"""What the benches in Python share: generated projects, and runs that are timed by turns."""
import json, os, random, statistics, subprocess, sys, tempfile, time

from generate import ENTITY

BENCH = os.path.dirname(os.path.abspath(__file__))
sys.path.append(os.path.join(os.path.dirname(BENCH), "tests", "support"))
from store_reader import records_of

# The program as a user starts it, unless another one is named.
PROGRAM = os.environ.get("VUNIT_RUN", os.path.join(os.path.dirname(BENCH), "bin", "vunit_run"))
SIZE = 16384
# As small as most files of users are.
SMALL_SIZE = 4000


def program_itself():
    """The program that a launcher starts, which is what its children are."""
    current = os.path.join(os.path.dirname(BENCH), "out", "current")
    if os.path.basename(os.path.dirname(PROGRAM)) != "bin" or not os.path.exists(current):
        return PROGRAM
    with open(current) as file:
        return os.path.join(os.path.dirname(current), file.readline().strip(), "vunit_run")


def new_room():
    """A folder that lasts as long as the bench: in TMPDIR, where that is given, else in memory, where that can be had."""
    memory = "/dev/shm"
    return tempfile.TemporaryDirectory(dir=memory if "TMPDIR" not in os.environ and os.access(memory, os.W_OK) else None)


def file_system(folder):
    """The kind of file system that a folder is on, as the system names it."""
    return subprocess.run(["stat", "-f", "-c", "%T", folder], check=True, capture_output=True, text=True).stdout.strip()


def needs_of(at, kind, chance):
    """The files that a file uses: up to four before it in its group of 64, four of all before it, or in a chain the one before."""
    if kind == "near":
        return list(range(max(at // 64 * 64, at - 4), at))
    if kind == "chain":
        return list(range(max(0, at - 1), at))
    return sorted(chance.sample(range(at), min(at, 4)))


def make_project(folder, count, kind, compiler=None, size=SIZE, simulator=None):
    """Makes a project of packages, by their number and size in bytes, and gives what each uses."""
    chance = random.Random(15)
    all_needs = [needs_of(at, kind, chance) for at in range(count)]
    os.makedirs(os.path.join(folder, "src"))
    for at, needs in enumerate(all_needs):
        text = "".join(f"use work.p{need:04}.all;\n" for need in needs) + f"package p{at:04} is\nend package p{at:04};\n\n"
        number = 8 * at
        while len(text) + len(piece := ENTITY.format(n=number, d=number % 9)) < size:
            text += piece
            number += 1
        text = text.ljust(size - 1, "-") + "\n"
        if len(text) != size:
            sys.exit("a generated file has another size")
        with open(os.path.join(folder, "src", f"p{at:04}.vhd"), "w") as file:
            file.write(text)
    commands = {"compiler": compiler, "simulator": simulator}
    with open(os.path.join(folder, "vunit.toml"), "w") as file:
        file.write("".join(f"{key} = {json.dumps(words)}\n" for key, words in commands.items() if words))
        file.write('[[library]]\nname = "lib"\nfiles = ["src/*.vhd"]\n')
    return all_needs


def make_benches(folder, benches, cases):
    """Adds benches to a project, each in a file that is as long as the others. Gives benches and names of their cases."""
    names = [(f"tb{bench:02}", f"case_{case:02}") for bench in range(benches) for case in range(cases)]
    for bench in dict(names):
        calls = "".join(f'    if run("{case}") then null; end if;\n' for of, case in names if of == bench)
        source = (f"entity {bench} is\n  generic (runner_cfg : string);\nend entity;\n\narchitecture sim of {bench} is\nbegin\n"
                  f"  main : process\n  begin\n{calls}  end process;\nend architecture;\n\n")
        with open(os.path.join(folder, "src", bench + ".vhd"), "w") as file:
            file.write(source.ljust(SIZE - 1, "-") + "\n")
    return names


def make_listed(folder, count, size):
    """Makes a listed project, each file of which depends on all before it, and gives these."""
    make_project(folder, count, "near", size=size)
    os.remove(os.path.join(folder, "vunit.toml"))
    with open(os.path.join(folder, "vunit.csv"), "w") as file:
        file.write("".join(f"lib,src/p{at:04}.vhd\n" for at in range(count)))
    return [list(range(at)) for at in range(count)]


def below(all_needs):
    """All that each file depends on, directly or indirectly, rising."""
    closed = []
    for needs in all_needs:
        found = set(needs)
        for need in needs:
            found |= closed[need]
        closed.append(found)
    return [sorted(found) for found in closed]


def timed(words, folder):
    """Seconds, peak memory in bytes and standard output of a command that has to end with 0."""
    took, usage, text = measured(words, folder)
    return took, usage.ru_maxrss * 1024, text


def measured(words, folder):
    """Seconds, what the system counted, and standard output of a command that has to end with 0."""
    with open(os.devnull) as nothing, open(os.path.join(folder, "..", "said"), "w+b") as said:
        begun = time.perf_counter()
        child = subprocess.Popen(words, cwd=folder, stdin=nothing, stdout=said)
        _, status, usage = os.wait4(child.pid, 0)
        took = time.perf_counter() - begun
        child.returncode = os.waitstatus_to_exitcode(status)
        said.seek(0)
        text = said.read()
    if child.returncode != 0:
        sys.exit(f"this ended with {child.returncode}: {' '.join(words)}\n{text[-2000:].decode(errors='replace')}")
    return took, usage, text


def build(folder, *words, program=PROGRAM):
    """Builds a project, and gives the seconds that it takes."""
    took, _, text = timed([program, "--compile", *words], folder)
    if not text.endswith(b"Compile passed\n"):
        sys.exit(f"{folder} isn't built: it says {text[-200:]}")
    return took


def check_no_op(text):
    if text != b"Re-compile not needed\n":
        sys.exit(f"something is compiled: it says {text[:200]}")


def compiled(name, room, *options):
    """A program in C of this folder, in a room."""
    made = os.path.join(room, name)
    subprocess.run([os.environ.get("CC", "cc"), "-O2", *options, "-o", made, os.path.join(BENCH, name + ".c")], check=True)
    return made


def by_turns(rounds, *works):
    """The medians of the figures of each work, over a number of rounds of all by turns. A round before them is thrown away."""
    found = [[] for _ in works]
    for at in range(rounds + 1):
        for work, times in zip(works, found):
            value = work()
            if at:
                times.append(value)
    return [statistics.median(times) for times in found]


class Turns:
    """The times of one command over one project, by turns with others."""

    def __init__(self, words, folder, check=None):
        self.words, self.folder, self.check, self.found = words, folder, check, []

    def run(self, is_kept):
        took, usage, text = measured(self.words, self.folder)
        if self.check:
            self.check(text)
        if is_kept:
            self.found.append((took, usage.ru_utime + usage.ru_stime, usage.ru_stime, usage.ru_maxrss * 1024))

    def median(self, at):
        return statistics.median(times[at] for times in self.found)

    clock = property(lambda self: self.median(0))
    processor = property(lambda self: self.median(1))
    system = property(lambda self: self.median(2))
    memory = property(lambda self: self.median(3))
    most_memory = property(lambda self: max(times[3] for times in self.found))


def take_turns(rounds, *all_turns):
    """Runs each command once in a round, over a number of rounds. A round before them is thrown away."""
    for at in range(rounds + 1):
        for each in all_turns:
            each.run(at > 0)


def store_bytes(folder):
    """The length of each side of a project's store."""
    return [os.path.getsize(os.path.join(folder, "vunit_out", side)) for side in ("store_a", "store_b")]


def compare_stores(folder, other):
    """Says whether the stores of two folders have the same records, in whichever order they were committed."""
    found, wanted = records_of(folder), records_of(other)
    return "the same records" if len(found) == len(wanted) and set(found) == set(wanted) else "other records"


def rounds_given(usual=9):
    if len(sys.argv) > 2 or len(sys.argv) == 2 and not sys.argv[1].isdigit():
        sys.exit(f"usage: {os.path.basename(sys.argv[0])} [ROUNDS]")
    return int(sys.argv[1]) if len(sys.argv) == 2 else usual
