"""Small linked projects by chance, each made of its seed alone: at most 8 files with design units of all kinds, which refer to
each other in all forms. Some have duplicate units, missing units, circles, or a text that isn't a list of units.

    make(SEED)            the project, for the plain rules and for the program
    make(SEED, Short)     a project in few bytes: without what only looks like a reference, and in lower case
    toml_of(PROJECT)      its vunit.toml in one line a key
    row_of(SEED)          a short project and what is to be read of it, as a line of the table of crates/tests_project

usage: random_projects.py COUNT        prints how many of the first projects are read, and how many refused for what
       random_projects.py rows COUNT   prints the table of the first short projects
"""
import collections, sys

import plain_rules
from plain_rules import Project, Refused

LIBRARIES = ["lib", "other", "third"]
PRIMARY = ["package", "entity", "context", "configuration", "instance"]
KINDS = ["package"] * 4 + ["entity"] * 3 + ["context"] * 3 + ["architecture"] * 5 + ["body"] * 3 + ["configuration"] * 2 + ["instance"]
# those of projects that are about configurations
CONFIGURED = ["package"] + ["entity"] * 3 + ["architecture"] * 5 + ["configuration"] * 4
# what a unit of these kinds is of
OWNERS = {"architecture": "entity", "body": "package", "configuration": "entity", "instance": "package"}

# Texts in the body of a unit that only look like references, or that nest text with an end of its own.
NOISE = [
    "-- use work.m9.all;\n", "/* library other; use other.m9.all; */ ", 'constant s : string := "work.m9";\n',
    "constant q : character := '\"';\n", "constant r : integer := rec.work.m9;\n", "constant t : bit := bit'('1');\n",
    "constant v : string := q'subtype'('\"', '(');\n",
    "function f return integer is begin return 1; end;\n", "procedure o is new f;\n", "type y is record x : bit; end record;\n",
    "package n is constant c : bit := '1'; end;\n", "constant l : integer := unseen.m9;\n", "component w is end component;\n",
    "constant z : integer := work.m9.c;\n", "`protect use work.m9;\n", "constant h : integer := f(work.all, other.all);\n",
    "constant d : bit := s'subtype'('1');\nfunction f return bit is begin return '1'; end;\n",
    "constant e : v := s'Subtype -- of s\n'('0', '\"');\nprocedure p is begin null; end;\n", "subtype j is bit;\n",
]
STATEMENTS = [
    "g : if true generate begin end generate;\n", "process begin if a then b; end if; end process;\n",
    "g : for i in 0 to 1 generate signal s : bit; begin end; end generate;\n", "b : block is begin end block;\n",
]
FAULTS = ["foo", "entity x is", "package x is end package;\nend;", "architecture a of is begin end;", "package x is new work.y"]


class Chance:
    """Numbers that are the same with each version of Python."""

    def __init__(self, seed):
        self.state = seed * 1000003

    def below(self, count):
        self.state = (self.state + 0x9E3779B97F4A7C15) % 2**64
        mixed = self.state
        for shift, factor in (30, 0xBF58476D1CE4E5B9), (27, 0x94D049BB133111EB), (31, 1):
            mixed = (mixed ^ mixed >> shift) * factor % 2**64
        return mixed % count

    def one_in(self, count):
        return self.below(count) == 0

    def one_of(self, items):
        return items[self.below(len(items))]

    def shuffled(self, items):
        items, out = list(items), []
        while items:
            out.append(items.pop(self.below(len(items))))
        return out


Planned = collections.namedtuple("Planned", "kind name owner file")


class Maker:
    most_units = 3

    def __init__(self, seed):
        self.chance = chance = Chance(seed)
        count = 1 + chance.below(8)
        used = LIBRARIES[:1 + chance.below(3)]
        names = chance.shuffled("abcdefgh"[:count])
        self.files = sorted(((chance.one_of(used), f"{name}.vhd") for name in names), key=lambda file: used.index(file[0]))
        if chance.one_in(30):  # a file of two libraries
            self.files.append((LIBRARIES[2], self.files[0][1]))
        self.libraries = list(dict.fromkeys(library for library, _ in self.files))
        # the files refer to earlier ones of this order alone, or to any
        self.rank = chance.shuffled(range(len(self.files)))
        self.is_free = chance.one_in(5)
        self.faults = chance.one_in(3)
        self.kinds = CONFIGURED if chance.one_in(3) else KINDS
        self.plan = []
        for file in self.rank:
            for _ in range(1 + chance.below(self.most_units)):
                self.plan_unit(file)

    def library(self, file):
        return self.files[file][0]

    def plan_unit(self, file):
        chance, number = self.chance, len(self.plan)
        kind = chance.one_of(self.kinds)
        mine = [unit for unit in self.plan if self.library(unit.file) == self.library(file)]
        owners = [unit for unit in (self.plan if kind == "instance" else mine) if unit.kind == OWNERS.get(kind)]
        if kind in OWNERS and not owners:
            kind = OWNERS[kind]
        if kind == "configuration":  # mostly of an entity that has an architecture
            owners = [unit.owner for unit in mine if unit.kind == "architecture" and not chance.one_in(6)] or owners
        owner = chance.one_of(owners) if kind in OWNERS else None
        name = f"r{number}" if kind == "architecture" else f"{kind[0]}{number}"
        if chance.one_in(12):
            name = f"\\{name} +\\"
        alike = [unit for unit in mine if kind in PRIMARY and unit.kind in PRIMARY or unit.owner is owner and unit.kind == kind]
        if kind == "body":
            if alike and not self.is_wrong(2):
                return
            name = owner.name
        elif alike and self.is_wrong(10):
            name = chance.one_of(alike).name
        self.plan.append(Planned(kind, name, owner, file))

    def is_wrong(self, count):
        """Whether a fault belongs here, once in a number of cases of a project that may have faults."""
        return self.faults and self.chance.one_in(count)

    def text(self, file):
        if self.is_wrong(30):
            return self.chance.one_of(FAULTS)
        return "".join(self.unit(unit) for unit in self.plan if unit.file == file)

    def said(self, word):
        """A name or a word in some case."""
        return word if word[0] == "\\" or not self.chance.one_in(8) else self.chance.one_of([word.upper(), word.capitalize()])

    def noise(self, lines, odds):
        return [self.chance.one_of(lines)] if self.chance.one_in(odds) else []

    def end(self, unit, name):
        kind = "package body" if unit.kind == "body" else unit.kind
        return self.chance.one_of(["end;\n", "end ;\n", f"end {kind} {name};\n"])

    def targets(self, unit, kinds):
        at = self.rank.index(unit.file)
        files = [file for place, file in enumerate(self.rank) if place <= at or self.is_free]
        return [other for other in self.plan if other.file in files and other.kind in kinds and other is not unit]

    def prefix(self, unit, library, clauses, always=False):
        """How a library is named, whose clause is mostly added."""
        if library == self.library(unit.file):
            if not self.chance.one_in(3):
                return self.said("work")
        # (the unit may see the library by a context, or by its entity, architecture or package)
        if always or self.chance.one_in(4 if unit.kind == "configuration" else 2):
            clauses.append(library)
        return self.said(library)

    def named(self, unit, other, clauses):
        library, name = self.library(other.file), other.name
        if self.is_wrong(20):
            name = "m9"
        return f"{self.prefix(unit, library, clauses)}.{self.said(name)}"

    def one(self, unit, kinds, odds):
        """A unit of these kinds, or none."""
        found = self.targets(unit, kinds)
        return self.chance.one_of(found) if found and not self.chance.one_in(odds) else None

    def whole(self, unit, clauses):
        """A whole library in a use clause, or its units."""
        other = self.one(unit, ["package"], 2) if self.chance.one_in(3) else None
        if other:
            return f"{self.named(unit, other, clauses)}{self.chance.one_of(['.all', '.c'])}"
        return f"{self.prefix(unit, self.chance.one_of([*self.libraries, 'ieee', 'unisim']), clauses)}.all"

    def items(self, unit, clauses):
        """Context items without library clauses."""
        chance, items = self.chance, []
        for _ in range(chance.below(3)):
            if other := self.one(unit, ["package", "instance"], 6):
                ending = chance.one_of([".all", ".c", ""])
                more = self.one(unit, ["package"], 2)
                second = f", {self.named(unit, more, clauses)}.c" if more else ""
                items.append(f"use {self.named(unit, other, clauses)}{ending}{second};\n")
        if other := self.one(unit, ["context"], 6):
            more = self.one(unit, ["context"], 2)
            second = f", {self.named(unit, more, clauses)}" if more else ""
            items.append(f"context {self.named(unit, other, clauses)}{second};\n")
        if chance.one_in(6):
            used = [self.whole(unit, clauses) for _ in range(1 + chance.below(3))]
            items.append(f"use {', '.join(used)};\n")
        if chance.one_in(12):
            library, name = chance.one_of([("ieee", "math"), ("unisim", "vcomponents"), ("std", "textio")])
            if library == "unisim" and not self.has_unisim and not self.is_wrong(2):
                library, name = "ieee", "math"
            items.append(f"use {self.prefix(unit, library, clauses, True)}.{name}.all;\n")
        if chance.one_in(15):
            clauses.append(chance.one_of(LIBRARIES))
        if unit.kind in ("entity", "architecture") and chance.one_in(4):  # for its architectures and configurations
            clauses.append(chance.one_of(self.libraries))
        return chance.shuffled(items)

    def inside(self, unit, clauses):
        """Declarations, and the statements of an architecture."""
        chance, lines, statements = self.chance, [], []
        for number in range(chance.below(3)):
            if other := self.one(unit, ["package", "entity", "instance"], 6):
                end = ".c" if chance.one_in(2) else ""
                start = "r." if chance.one_in(6) else ""
                lines.append(f"constant k{number} : integer := {start}{self.named(unit, other, clauses)}{end};\n")
        if chance.one_in(6) and (other := self.one(unit, ["package"], 6)):
            lines.append(f"package i is new {self.named(unit, other, clauses)};\n")
        lines += self.noise(NOISE, 3)
        if unit.kind == "architecture":
            if chance.one_in(4):
                lines.append(self.specification(unit, clauses))
            if other := self.one(unit, ["entity"], 9):
                known = [one for one in self.targets(unit, ["architecture"]) if one.owner is other]
                given = f"({self.said(chance.one_of(known).name)})" if known else ""
                if self.is_wrong(2):
                    given = "(m9)"
                statements.append(f"u : entity {self.named(unit, other, clauses)}{given};\n")
            if other := self.one(unit, ["configuration"], 3):
                statements.append(f"v : configuration {self.named(unit, other, clauses)};\n")
            statements += self.noise(STATEMENTS, 4)
        return "".join(chance.shuffled(lines)), "".join(chance.shuffled(statements))

    def bound(self, unit, clauses):
        """A binding to an entity, and the names of its architectures."""
        known = self.targets(unit, ["architecture"])
        apart = [one for one in known if one.owner is not unit.owner and one.file not in (unit.file, one.owner.file)]
        if apart and not self.chance.one_in(3):
            known = [self.chance.one_of(apart)]
        other = self.chance.one_of(known).owner if known and not self.chance.one_in(4) else self.one(unit, ["entity"], 3)
        if not other:
            return "use open", []
        names = [one.name for one in known if one.owner is other]
        return f"use entity {self.named(unit, other, clauses)}", ["m9"] if self.is_wrong(3) else names

    def specification(self, unit, clauses):
        """A configuration specification of an architecture, without a block configuration next."""
        bound, known = self.bound(unit, clauses)
        given = f"({self.said(self.chance.one_of(known))})" if known and self.chance.one_in(3) else ""
        more = f"for {self.chance.one_of([*known, 'm9'])}\nend for;\n" if self.chance.one_in(3) else ""
        return f"for {self.chance.one_of(['t', 't, x'])} : w {bound}{given};\n{more}"

    def component(self, unit, clauses, depth):
        """A component configuration, with a block configuration, or with something else after its binding."""
        chance = self.chance
        labels = chance.one_of(["u", "u, v", "all", "others"])
        if (other := self.one(unit, ["configuration"], 2)) and chance.one_in(4):
            return f"for {labels} : w use configuration {self.named(unit, other, clauses)};\nend for;\n"
        bound, known = self.bound(unit, clauses)
        start, end = f"for {labels} : w {bound}", "end for;\n"
        form = chance.below(9)
        if not known or form == 0:
            return f"{start};\n{end}"
        name = self.said(chance.one_of(known))
        if form == 1:
            return f"{start}({name});\n{end}"
        if form == 2:
            return f"{start} port map (a);\nfor {name}\n{end}{end}"
        if form == 3:
            label = chance.one_of([name, "m9", "m9, v"])
            return f"{start};\nfor {label} : w use open;\n{end}{end}"
        return f"{start};\n{self.block(unit, clauses, name, depth + 1)}{end}"

    def block(self, unit, clauses, name, depth):
        """A block configuration."""
        used = ""
        if self.chance.one_in(6) and (other := self.one(unit, ["package"], 4)):
            used = f"use {self.named(unit, other, clauses)}.c;\n"
        count = 1 + self.chance.below(2) if depth == 0 else self.chance.below(2) if depth == 1 else 0
        inner = "".join(self.component(unit, clauses, depth) for _ in range(count))
        return f"for {name}\n{used}{inner}end for;\n"

    def clauses(self, names):
        if not names:
            return ""
        names = [self.said(name) for name in dict.fromkeys(names)]
        return f"library {', '.join(names)};\n" if self.chance.one_in(2) else "".join(f"library {name};\n" for name in names)

    def unit(self, unit):
        chance, clauses = self.chance, []
        name = self.said(unit.name)
        if unit.kind == "context":
            items = "".join(self.items(unit, clauses))
            if not chance.one_in(3):
                clauses.append(chance.one_of(LIBRARIES))
            return f"context {name} is\n{self.clauses(clauses)}{items}{self.end(unit, name)}"
        items = "".join(self.items(unit, clauses))
        end = self.end(unit, name)
        if unit.kind == "instance":
            start = f"package {name} is new {self.named(unit, unit.owner, clauses)};\n"
        elif unit.kind == "configuration":
            known = [one for one in self.plan if one.kind == "architecture" and one.owner is unit.owner and self.rank.index(one.file) <= self.rank.index(unit.file)]
            name_of_first = "m9" if self.is_wrong(4) else chance.one_of(known).name if known and not chance.one_in(4) else None
            inner = self.block(unit, clauses, name_of_first, 0) if name_of_first else ""
            start = f"configuration {name} of {unit.owner.name} is\n{inner}{end}"
        else:
            lines, statements = self.inside(unit, clauses)
            if unit.kind == "architecture":
                start = f"architecture {name} of {unit.owner.name} is\n{lines}begin\n{statements}{end}"
            elif unit.kind == "body":
                start = f"package body {name} is\n{lines}{end}"
            else:
                start = f"{unit.kind} {name} is\n{lines}{end}"
        return f"{self.clauses(clauses)}{items}{start}"

    def project(self):
        chance = self.chance
        self.has_unisim = not chance.one_in(3)
        bodies = chance.one_in(3)
        texts = {}
        for file in range(len(self.files)):
            texts.setdefault(self.files[file][1], self.text(file))
        pairs = []
        for _ in range(chance.below(3) if chance.one_in(4) else 0):
            user, used = sorted((chance.below(len(self.files)), chance.below(len(self.files))), key=self.rank.index, reverse=True)
            pairs.append((self.files[user], self.files[used]))
        return Project(self.files, texts, ["unisim"] if self.has_unisim else [], bodies, pairs)


class Short(Maker):
    most_units = 2

    def said(self, word):
        return word

    def noise(self, lines, odds):
        return []

    def end(self, unit, name):
        return "end;\n"


def make(seed, maker=Maker):
    return maker(seed).project()


def toml_of(project):
    """The project file: keys that say what holds without them are left out."""
    lines = []
    if project.external:
        lines.append(f"external = {project.external}")
    if project.bodies:
        lines.append("users_depend_on_bodies = true")
    paths = {library: [path for other, path in project.files if other == library] for library, _ in project.files}
    tables = ("{ name = '%s', files = %s }" % (library, paths[library]) for library in paths)
    lines.append("library = [" + ", ".join(tables) + "]")
    if project.depends:
        tables = ("{ library = '%s', path = '%s', on_library = '%s', on_path = '%s' }" % (*user, *used) for user, used in project.depends)
        lines.append("depends = [" + ", ".join(tables) + "]")
    return "\n".join(lines) + "\n"


# What each capital stands for in a row.
PHRASES = {
    "A": "architecture ", "B": "package body ", "C": "context ", "D": ".all", "E": "entity ", "F": "configuration ", "G": " : integer := ",
    "H": "begin|", "I": " is|", "J": "vunit_run: ", "K": "constant k", "L": "library ", "M": "lib", "N": " is new ", "O": "other",
    "P": "package ", "Q": "', files = ['", "R": "'] }, { name = '", "S": "library = [{ name = '", "T": "third", "U": "use ", "V": ".vhd",
    "W": "work.", "X": "end;|", "Y": "users_depend_on_bodies = true|", "Z": "external = ['unisim']|",
}


def answer_of(project):
    """The lines of the warnings, and for each file in order the letters of its own path and of its dependencies; or the
    refusal."""
    try:
        reading = plain_rules.read(project)
    except Refused as fault:
        return f"vunit_run: {fault}\n"
    words = ("".join(path[0] for _, path in [file, *used]) for file, used in zip(reading.files, reading.closures))
    return "".join(f"{line}\n" for line in reading.warnings) + "".join(f"{word} " for word in words)


def row_of(seed):
    project = make(seed, Short)
    files = "".join(f"#{path}%{text}" for path, text in project.texts.items())
    row = f"{toml_of(project)}{files}~{answer_of(project)}".replace("\n", "|")
    if any(letter.isupper() for letter in row):
        raise ValueError(row)
    for letter, phrase in sorted(PHRASES.items(), key=lambda pair: -len(pair[1])):
        row = row.replace(phrase, letter)
    return row


def main():
    if sys.argv[1] == "rows":
        for seed in range(int(sys.argv[2])):
            print(row_of(seed))
        return
    counts = collections.Counter()
    for seed in range(int(sys.argv[1])):
        try:
            reading = plain_rules.read(make(seed))
            counts["read"] += 1
            counts["with warnings"] += bool(reading.warnings)
        except Refused as fault:
            words = str(fault)
            kinds = ["cycle", "stands in", "no unit", "no architecture", "no design unit", "not ended"]
            counts[next(kind for kind in kinds if kind in words)] += 1
    print(", ".join(f"{count} {kind}" for kind, count in counts.most_common()))


if __name__ == "__main__":
    main()
