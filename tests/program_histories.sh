#!/bin/sh
# Histories by chance over one store each: runs after edits, with refused files, with and without -k, with one child or several,
# over a clean store or not, and kills in between. Each run that isn't killed starts exactly the files without a current record,
# each with the request of a clean build, and says so; whatever is on the disk are true records.
. "$TOP/tests/support/needs.sh"
needs python3 tomllib
PYTHONPATH=$TOP/tests/support exec python3 -B - <<'END'
import ctypes, os, random, subprocess, time

from store_reader import asked_at, built_over, graph_of, records_of, request_of
from trial import COMPILER, PROGRAM, artefact_of, end, environment, fail, is_true, package, project, requests_in, run, stale_of, toml, write

SEEDS, RUNS = range(30), 8
ctypes.CDLL(None).prctl(36, 1, 0, 0, 0)  # what a killed program leaves running becomes a child of this process


class History:
    """A project under edits: its files, which of them are there, and what each uses."""

    def __init__(self, seed):
        self.chance = random.Random(seed)
        self.count = self.chance.randint(3, 8)
        self.places = [self.chance.choice(["lib", "other"]) for _ in range(self.count)]
        self.uses = [{used for used in range(at) if self.chance.random() < 0.4} for at in range(self.count)]
        self.notes = [0] * self.count
        self.refused = set()
        self.gone = set()
        self.options = {"lib": [], "other": []}

    def edit(self):
        """Changes one thing, or nothing."""
        at = self.chance.randrange(self.count)
        kind = self.chance.randrange(8)
        if kind < 2:
            self.notes[at] = self.chance.randrange(3)
        elif kind < 4:
            self.refused ^= {at}
        elif kind == 4 and at:
            self.uses[at] ^= {self.chance.randrange(at)}
        elif kind == 5:
            self.gone ^= {at}
        elif kind == 6:
            self.options[self.places[at]] = self.chance.choice([[], ["one"], ["two", "three"]])

    def text(self, at):
        used = sorted(self.uses[at] - self.gone)
        names = [("work" if self.places[one] == self.places[at] else self.places[one]) + f".p{one}" for one in used]
        refusal = f"-- child: refuse p{at}\n" if at in self.refused else ""
        return package(f"p{at}", *names) + "-- a note\n" * self.notes[at] + refusal

    def write(self):
        """Writes the project, and leaves the store."""
        for name in os.listdir("project"):
            if name != "vunit_out":
                os.remove(os.path.join("project", name))
        here = [at for at in range(self.count) if at not in self.gone]
        libraries = {}
        for at in sorted(here, key=lambda at: (self.places[at], -at)):
            libraries.setdefault(self.places[at], []).append(f"p{at}.vhd")
        text = toml(libraries, COMPILER, self.options) if libraries else "library = []\n"
        write("project", {"vunit.toml": text, **{f"p{at}.vhd": self.text(at) for at in here}})

    def is_refused(self, name):
        return int(name[1][1:-4]) in self.refused


def planned(history, graph, stale, keeps):
    """What a run starts, in order, and the lines that it says, where one child runs at a time or the run keeps going."""
    started, lines, refused = [], [], set()
    for at, entry in enumerate(graph):
        name, title = entry[:2], "Compiling into %s: %s" % (entry.library.decode(), entry.path.decode())
        if refused and not keeps:
            break
        if any(dep in refused for dep in entry.deps):
            refused.add(at)
            lines.append(title + " skipped\n")
        elif name in stale:
            started.append(at)
            if history.is_refused((None, name[1].decode())):
                refused.add(at)
                lines.append(f"{title} failed\n{name[1].decode()[:-4]}\n")
            else:
                lines.append(title + " passed\n")
    last = "Compile failed\n" if refused else "Compile passed\n" if started else "Re-compile not needed\n"
    return started, "".join(lines) + last, 1 if refused else 0


def check_records(name):
    for record in records_of("project"):
        if not is_true(record):
            fail(name, f"the record of {record.asked.path} isn't true")


def check_run(name, history):
    """A run to its end."""
    chance = history.chance
    graph = graph_of("project")
    clean = chance.random() < 0.1
    stale = [entry[:2] for entry in graph] if clean else stale_of("project")
    keeps, slots = chance.random() < 0.5, chance.choice([1, 1, 3, 64])
    if history.refused and not keeps:
        slots = 1
    started, text, status = planned(history, graph, stale, keeps)
    words = ["--compile", "-p", str(slots)] + ["-k"] * keeps + ["--clean"] * clean
    ran = run("project", *words, env=environment("requests"))
    if ran != (status, text.encode(), b""):
        fail(f"{name}: {words}", f"it is {ran}\nand not {(status, text)}")
    built = built_over(graph, [], artefact_of)[1]
    requests, wanted = requests_in("requests"), [request_of(asked_at(graph, at, built)) for at in started]
    if sorted(requests) != sorted(wanted) or slots == 1 and requests != wanted:
        fail(f"{name}: {words}", "other compilers were started")
    if status == 0 and stale_of("project"):
        fail(f"{name}: {words}", f"without a record are {stale_of('project')}")


def kill_run(history):
    """A run that is killed after some milliseconds."""
    with open(os.devnull, "w") as nothing:
        child = subprocess.Popen([PROGRAM, "--compile", "-k", "-p", "2"], cwd="project", env=environment("requests"),
                                 stdin=subprocess.DEVNULL, stdout=nothing, stderr=nothing)
        time.sleep(history.chance.random() / 20)
        child.kill()
        child.wait()
    while True:  # (children that are left still write their requests)
        try:
            os.wait()
        except ChildProcessError:
            return


kills = 0
for seed in SEEDS:
    history = History(seed)
    project("project", {})
    for turn in range(RUNS):
        for _ in range(history.chance.randrange(3)):
            history.edit()
        history.write()
        if history.chance.random() < 0.2:
            kill_run(history)
            kills += 1
        else:
            check_run(f"history {seed}, run {turn}", history)
        check_records(f"history {seed}, run {turn}")
if kills < 10:
    fail("the histories", f"they have only {kills} kills")
end()
END
