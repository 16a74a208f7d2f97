"""The facts in the sources of a linked project, by a plain program that is written from the rules alone and shares nothing with
the compared one. Tokens (IEEE Std 1076-2008, clause 15), design units, references, visible libraries, dependencies and the
order of files (clause 13, but for the choices that the documents name as this project's own).

It looks at everything again and again, so it is for small projects. It reads whole texts, but doesn't look for lexical
faults.
"""
import collections, re

Project = collections.namedtuple("Project", "files texts external bodies depends")  # files are pairs of library and path
Unit = collections.namedtuple("Unit", "kind name owner lead first last")
Ref = collections.namedtuple("Ref", "library name architecture strict")
Placed = collections.namedtuple("Placed", "position library unit tokens refs")
# by `files` in compile order, each with the names of its dependencies in that order; and the lines of the warnings
Reading = collections.namedtuple("Reading", "files closures warnings")


class Refused(Exception):
    """The fault of the sources, in the program's words."""


RESERVED = set(
    """abs access after alias all and architecture array assert assume assume_guarantee attribute begin block body buffer bus
    case component configuration constant context cover default disconnect downto else elsif end entity exit fairness file for
    force function generate generic group guarded if impure in inertial inout is label library linkage literal loop map mod
    nand new next nor not null of on open or others out package parameter port postponed procedure process property protected
    pure range record register reject release rem report restrict restrict_guarantee return rol ror select sequence severity
    shared signal sla sll sra srl strong subtype then to transport type unaffected units until use variable vmode vprop vunit
    wait when while with xnor xor""".split()
)
INNER_ENDS = "if case loop block process record units protected component for postponed".split()
STRICT = "use context entity configuration new".split()
ALWAYS_EXTERNAL = ["std", "ieee", "vunit_lib"]


# ## Tokens

GAP = re.compile(r"[\t\n\v\f\r ]|--[^\n\v\f\r]*|/\*.*?\*/|`[^\n\v\f\r]*", re.S)
PIECE = re.compile(
    r'[A-Za-z][A-Za-z0-9_]*|[0-9][A-Za-z0-9_.#]*|"(?:[^"\n\v\f\r]|"")*"|\\(?:[^\\\n\v\f\r]|\\\\)*\\|.', re.S
)
CHARACTER = re.compile(r"'.'", re.S)


def is_tick_after(before):
    """Whether an apostrophe after this token opens no character."""
    return is_name(before) or before in ("all", "subtype", ")", "]") or before[:1] in ("'", '"') and len(before) > 1


def tokens_of(text):
    """Pairs of a token and its place. A word is in lower case."""
    found, at = [], 0
    while at < len(text):
        if gap := GAP.match(text, at):
            at = gap.end()
            continue
        piece = PIECE.match(text, at)
        if text[at] == "'" and not is_tick_after(found[-1][0] if found else ""):
            piece = CHARACTER.match(text, at) or piece
        token = piece[0]
        found.append((token.lower() if token[0].isalpha() else token, at))
        at = piece.end()
    return found


def is_name(token):
    return token[:1].isalpha() and token not in RESERVED or token[:1] == "\\"


# ## Units


class Text:
    """The tokens of a file, which may be asked for beyond their end."""

    def __init__(self, text):
        pairs = tokens_of(text)
        self.words, self.places = [word for word, _ in pairs], [place for _, place in pairs]

    def __getitem__(self, at):
        return self.words[at] if 0 <= at < len(self.words) else ""

    def next(self, word, at):
        """The place of the next such token from there on, or None."""
        return self.words.index(word, at) if word in self.words[at:] else None

    def after_name(self, at):
        """The place after NAME or NAME.NAME, if there is one."""
        while is_name(self[at]):
            if self[at + 1] != ".":
                return at + 1
            at += 2
        return None

    def opens_package(self, at):
        return self[at + 1] == "body" or is_name(self[at + 1]) and self[at + 2] == "is" and self[at + 3] != "new"

    def opens_subprogram(self, at):
        depth = 0
        for place in range(at + 1, len(self.words)):
            depth += (self[place] == "(") - (self[place] == ")")
            if depth == 0 and self[place] in ("is", ";"):
                return self[place] == "is" and self[place + 1] != "new"
        return False

    def opens_generate(self, at):
        for place in range(at - 1, -1, -1):
            if self[place] in ("if", "for", "case", "elsif", "else"):
                return self[place] in ("if", "for", "case")
        return False

    def unit_end(self, start):
        """The place of the semicolon that ends a unit whose tokens after its `is` begin there, or None."""
        depth, inside = 0, ["unit"]
        for at in range(start, len(self.words)):
            word, is_apart = self[at], self[at - 1] not in ("end", ":")
            depth += (word == "(") - (word == ")")
            if word == "end" and self[at + 1] == "generate":
                if inside[-1] == "generate":
                    inside.pop()
            elif word == "end" and self[at + 1] not in INNER_ENDS:
                if inside[-1] != "generate":
                    inside.pop()
                if not inside:
                    return self.next(";", at)
            elif word == "package" and depth == 0 and is_apart and self.opens_package(at):
                inside.append("package")
            elif word in ("function", "procedure") and depth == 0 and is_apart and self.opens_subprogram(at):
                inside.append("subprogram")
            elif word == "generate" and self[at - 1] != "end" and self.opens_generate(at):
                inside.append("generate")
        return None

    def begun(self, at):
        """What begins at a place at file level: its kind, name and owner, and the place after its `is`. No such place means
        that it ends with its first semicolon."""
        word = self[at]
        if word in ("library", "use"):
            return "item", None, None, None
        if word == "context":
            named = is_name(self[at + 1]) and self[at + 2] == "is"
            return ("context", self[at + 1], None, at + 3) if named else ("item", None, None, None)
        if word == "entity" and is_name(self[at + 1]) and self[at + 2] == "is":
            return "entity", self[at + 1], None, at + 3
        if word in ("architecture", "configuration") and is_name(self[at + 1]) and self[at + 2] == "of":
            after = self.after_name(at + 3)
            if after and self[after] == "is":
                return word, self[at + 1], self[after - 1], after + 1
        if word == "package" and self[at + 1] == "body" and is_name(self[at + 2]) and self[at + 3] == "is":
            return "body", self[at + 2], None, at + 4
        if word == "package" and is_name(self[at + 1]) and self[at + 2] == "is":
            is_new = self[at + 3] == "new"
            return ("instance", self[at + 1], None, None) if is_new else ("package", self[at + 1], None, at + 3)
        raise Refused(f"no design unit at {self.places[at]}")

    def units(self):
        found, at, lead = [], 0, 0
        while at < len(self.words):
            kind, name, owner, start = self.begun(at)
            last = self.unit_end(start) if start else self.next(";", at)
            if last is None:
                raise Refused(f"design unit not ended at {self.places[at]}")
            if kind != "item":
                found.append(Unit(kind, name, owner, lead, at, last))
                lead = last + 1
            at = last + 1
        return found

    # ## References

    def keyword_of(self, at):
        """The word that says what a name at a place is used for: the one before it, or before the list that it stands in."""
        if self[at - 1] != ",":
            return self[at - 1]
        for place in range(at - 1, -1, -1):
            if self[place] in ("use", "context", ";"):
                return self[place]
        return ""

    def given_architecture(self, unit, at):
        """The architecture that is given with the entity that is named at a place, or None."""
        if self[at - 1] != "entity":
            return None
        if self[at + 3] == "(" and is_name(self[at + 4]) and self[at + 5] == ")":
            return self[at + 4]
        is_bound = unit.kind == "configuration" and self[at - 2] == "use"
        if is_bound and (self[at + 3], self[at + 4]) == (";", "for") and is_name(self[at + 5]) and self[at + 6] not in (":", ","):
            return self[at + 5]
        return None

    def references(self, unit):
        found = []
        if unit.kind == "architecture":
            found.append(Ref("work", unit.owner, None, True))
        if unit.kind == "body":
            found.append(Ref("work", unit.name, None, True))
        if unit.kind == "configuration":
            place = self.next("for", unit.first)
            named = place is not None and place < unit.last and is_name(self[place + 1])
            found.append(Ref("work", unit.owner, self[place + 1] if named else None, True))
        for at in range(unit.lead, unit.last):
            if is_name(self[at]) and self[at - 1] != "." and self[at + 1] == "." and is_name(self[at + 2]):
                given = self.given_architecture(unit, at)
                found.append(Ref(self[at], self[at + 2], given, self.keyword_of(at) in STRICT))
        return found

    def is_used(self, at):
        """Whether a place comes after `use`, or after a comma with a `use` before it and no semicolon in between."""
        if self[at - 1] != ",":
            return self[at - 1] == "use"
        before = self.words[:at]
        return "use" in before[len(before) - before[::-1].index(";") if ";" in before else 0:]

    def whole_uses(self, unit):
        """The libraries that a unit uses whole."""
        places = range(unit.lead, unit.last)
        return [self[at] for at in places if is_name(self[at]) and (self[at + 1], self[at + 2]) == (".", "all") and self.is_used(at)]

    def own_part(self, unit):
        """The places of a unit's own context items."""
        return range(unit.lead, unit.last if unit.kind == "context" else unit.first)

    def clause_names(self, unit):
        """The names in the library clauses of a unit."""
        found = set()
        for at in self.own_part(unit):
            if self[at] == "library":
                found |= {word for word in self.words[at:self.next(";", at)] if is_name(word)}
        return found

    def context_refs(self, unit):
        """The contexts that a unit refers to."""
        return [
            (self[at], self[at + 2]) for at in self.own_part(unit)
            if is_name(self[at]) and self[at + 1] == "." and is_name(self[at + 2]) and self.keyword_of(at) == "context"
        ]


# ## Projects


def spelled(library, unit):
    name = f"{library}.{unit.owner}({unit.name})" if unit.kind == "architecture" else f"{library}.{unit.name}"
    return "body " * (unit.kind == "body") + name


class Plain:
    """A project whose units are known."""

    def __init__(self, project):
        self.project, self.units = project, []
        for position, (library, path) in enumerate(project.files):
            text = Text(project.texts[path])
            try:
                units = text.units()
            except Refused as fault:
                raise Refused(f"{library}, {path}: {fault}") from None
            self.units += [Placed(position, library, unit, text, text.references(unit)) for unit in units]
        self.visible = self.least_sets()

    def name(self, position):
        return ", ".join(self.project.files[position])

    def library_of(self, placed, library):
        return placed.library if library == "work" else library

    def primaries(self, library, name):
        return [one for one in self.units if one.library == library and one.unit.name == name and one.unit.kind not in ("architecture", "body")]

    def architectures(self, library, entity, name):
        return [one for one in self.units if one.unit.kind == "architecture" and (one.library, one.unit.owner, one.unit.name) == (library, entity, name)]

    def bodies(self, library, name):
        is_package = any(one.unit.kind == "package" for one in self.primaries(library, name))
        return [one for one in self.units if is_package and one.unit.kind == "body" and (one.library, one.unit.name) == (library, name)]

    def around(self, one):
        """The units whose libraries a unit sees too: the primary units that it belongs to or is a configuration of, and the
        architectures that it configures."""
        owner = one.unit.name if one.unit.kind == "body" else one.unit.owner
        configured = one.refs[0].architecture if one.unit.kind == "configuration" else None
        return self.primaries(one.library, owner) + self.architectures(one.library, owner, configured)

    def least_sets(self):
        """The visible libraries of each unit: the least sets that have what they are to have."""
        sets = [{"work", "std"} | one.tokens.clause_names(one.unit) for one in self.units]
        while True:
            before = [set(names) for names in sets]
            for one, names in zip(self.units, sets):
                for other in self.around(one):
                    names |= before[self.units.index(other)]
                for library, name in one.tokens.context_refs(one.unit):
                    if library in names:
                        for other in self.primaries(self.library_of(one, library), name):
                            if other.unit.kind == "context":
                                names |= before[self.units.index(other)] - {"work", "std"}
            if sets == before:
                return sets

    def find_duplicate(self):
        for at, one in enumerate(self.units):
            for other in self.units[:at]:
                is_primary = one.unit.kind not in ("architecture", "body")
                alike = (
                    other in self.primaries(one.library, one.unit.name) if is_primary
                    else one.unit.kind == other.unit.kind and one.library == other.library and one.unit[1:3] == other.unit[1:3]
                )
                if alike:
                    raise Refused(f"{spelled(one.library, one.unit)} stands in {self.name(other.position)} and {self.name(one.position)}")

    def is_external(self, library):
        has_files = any(library == other for other, _ in self.project.files)
        return not has_files and library in [*self.project.external, *ALWAYS_EXTERNAL]

    def seen_refs(self):
        """The references by a visible library: of which unit, to which library, and the reference."""
        for one, names in zip(self.units, self.visible):
            for ref in one.refs:
                if ref.library in names:
                    yield one, self.library_of(one, ref.library), ref

    def find_missing(self):
        for one, library, ref in self.seen_refs():
            if not ref.strict or self.is_external(library):
                continue
            if not self.primaries(library, ref.name):
                raise Refused(f"{self.name(one.position)}: no unit {library}.{ref.name}")
            if ref.architecture and not self.architectures(library, ref.name, ref.architecture):
                raise Refused(f"{self.name(one.position)}: no architecture {ref.architecture} of {library}.{ref.name}")

    def edges(self):
        """The positions that each position depends on itself."""
        found = [set() for _ in self.project.files]
        for one, library, ref in self.seen_refs():
            used = self.primaries(library, ref.name)
            if ref.architecture:
                used = used + self.architectures(library, ref.name, ref.architecture)
            if self.project.bodies:
                used = used + self.bodies(library, ref.name)
            found[one.position] |= {other.position for other in used}
        for user, used in self.project.depends:
            found[self.project.files.index(user)].add(self.project.files.index(used))
        return [sorted(deps - {position}) for position, deps in enumerate(found)]

    def warnings(self):
        libraries = {library for library, _ in self.project.files}
        for one, names in zip(self.units, self.visible):
            for library in one.tokens.whole_uses(one.unit):
                meant = self.library_of(one, library)
                if library in names and meant in libraries:
                    yield f"vunit_run: warning: {self.name(one.position)}: use of {meant}.all gives no dependency"


def order_of(edges, name):
    """Again and again the first whose dependencies were taken, or else a cycle."""
    taken = []
    while len(taken) < len(edges):
        free = [file for file in range(len(edges)) if file not in taken and all(dep in taken for dep in edges[file])]
        if not free:
            walk, file = [], next(file for file in range(len(edges)) if file not in taken)
            while file not in walk:
                walk.append(file)
                file = next(dep for dep in edges[file] if dep not in taken)
            raise Refused("\n  ".join(["cycle", *(name(one) for one in walk[walk.index(file):])]))
        taken.append(free[0])
    return taken


def read(project):
    """What the sources say, or why they are refused."""
    plain = Plain(project)
    plain.find_duplicate()
    plain.find_missing()
    edges = plain.edges()
    order = order_of(edges, plain.name)
    closures = {}
    for file in order:  # each after all that it depends on
        closures[file] = set(edges[file]).union(*(closures[dep] for dep in edges[file]))
    named = [[project.files[dep] for dep in order if dep in closures[file]] for file in order]
    return Reading([project.files[file] for file in order], named, list(plain.warnings()))
