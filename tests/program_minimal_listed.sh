#!/bin/sh
# Files that tests need in random listed projects, by the real program: there each file depends on all before it, units may have one
# name, and what they belong to may be missing. A plain model finds the files.
. "$TOP/tests/support/needs.sh"
needs python3
PYTHONPATH=$TOP/tests/support exec python3 -B - <<'END'
import random

from trial import end, expect, project

NAMES = ("c0", "c1", "c2", "c3")


class Units:
    """The units of a random project, file by file: its lines, its texts, and of each unit what counts here."""

    def __init__(self, chance):
        self.chance, self.lines, self.texts, self.all, self.tests = chance, [], {}, [], {}
        for at in range(chance.randrange(1, 14)):
            self.add_file(at)

    def add_file(self, at):
        library = self.chance.choice("ab")
        path = f"{library}_{at}.vhd"
        self.lines.append(f"{library},{path}")
        is_bench = self.chance.random() < 0.25
        texts = [self.bench(at, library)] if is_bench else [self.unit(at, number, library) for number in range(self.chance.randrange(1, 4))]
        self.texts[path] = "".join(texts)
        if is_bench:
            self.tests[f"{library}.t{at}.x"] = at

    def spelled(self, name):
        return self.chance.choice([name, name.upper()])

    def head(self, library):
        """A library clause for the other library, or none, and what is seen with it."""
        other = "b" if library == "a" else "a"
        return (f"library {self.spelled(other)};\n", {library, other}) if self.chance.random() < 0.4 else ("", {library})

    def components(self):
        names = [name for name in NAMES if self.chance.random() < 0.2]
        return "".join(f"component {self.spelled(name)} is end component;\n" for name in names), names

    def keep(self, at, library, kind, name, sees, names=()):
        self.all.append((at, library, kind, name, sees, names))

    def unit(self, at, number, library):
        before, sees = self.head(library)
        kind = self.chance.choice(["entity", "entity", "architecture", "architecture", "package", "body"])
        if kind == "entity":
            name = self.chance.choice(NAMES)
            self.keep(at, library, kind, name, sees)
            return f"{before}entity {self.spelled(name)} is end;\n"
        text, names = self.components()
        name = self.chance.choice(NAMES if kind == "architecture" else ("p0", "p1"))
        self.keep(at, library, kind, name, sees, names)
        if kind == "architecture":
            return f"{before}architecture a{at}_{number} of {self.spelled(name)} is\n{text}begin end;\n"
        return f"{before}package {'body ' if kind == 'body' else ''}{self.spelled(name)} is\n{text}end;\n"

    def bench(self, at, library):
        before, sees = self.head(library)
        text, names = self.components()
        self.keep(at, library, "entity", f"t{at}", sees)
        self.keep(at, library, "architecture", f"t{at}", {library}, names)
        return (f"{before}entity t{at} is generic (runner_cfg : string); end;\narchitecture a of t{at} is\n{text}"
                f'begin\np : process begin if run("x") then null; end if; end process;\nend;\n')

    def seen(self, library, kind, name, sees):
        """What a unit sees: an architecture what each entity of its name sees, and a body what each package does."""
        primary = {"architecture": "entity", "body": "package"}.get(kind)
        return sees.union(*(others for _at, other, one, called, others, _names in self.all if (other, one, called) == (library, primary, name)))

    def needs(self, at):
        """What a file needs itself."""
        files = set(range(at))
        for file, library, kind, name, sees, names in self.all:
            if file == at:
                part = {"entity": "architecture", "package": "body"}.get(kind)
                looked = self.seen(library, kind, name, sees)
                for other, where, one, called, _sees, _names in self.all:
                    if (where, one, called) == (library, part, name) or (one == "entity" and called in names and where in looked):
                        files.add(other)
        return files

    def needed(self, files):
        """The least set of files that has these and what each of its own needs."""
        found, left = set(), list(files)
        while left:
            at = left.pop()
            if at not in found:
                found.add(at)
                left += self.needs(at)
        return sorted(found)


counts = set()
for seed in range(600):
    chance = random.Random(seed)
    units = Units(chance)
    project("listed", {"vunit.csv": "".join(f"{line}\n" for line in units.lines), **units.texts})
    asked = [test for test in units.tests if chance.random() < 0.5]
    needed = units.needed(units.tests[test] for test in asked)
    counts.add((len(needed) > max([units.tests[test] + 1 for test in asked], default=0), len(needed) < len(units.lines)))
    text = "".join(units.lines[at].replace(",", ", ") + "\n" for at in needed) + f"Listed {len(needed)} files\n"
    expect(f"project {seed}", "listed", 0, text, "-f", "-m", *(asked or ["nothing"]))
# Some need more than what stands before their tests, and some of these leave files out.
if counts != {(False, False), (False, True), (True, False), (True, True)}:
    raise SystemExit(f"the projects are too much alike: {counts}")
end()
END
