#!/bin/sh
# Every name of this repository's specs that a public clause cites has an entry in docs/proof/HEADLINE.md or DEFINITIONS.md: in
# bold, between backticks, in an item or below a heading that names a file of specs. Public are the exported functions and the
# traits of the library crates, but for those of tests, benches, objects in memory and the generated project. Prints the names
# that are missing. And no abandoned word comes back: the list has each with its replacement. Ends with 0, with 1 where a name
# is missing or a word has come back, and with 77 where python3 is missing.
cd -- "${TOP:-$(dirname -- "$0")/..}" || exit 1
. tests/support/needs.sh
needs python3
exec python3 - <<'END'
import pathlib, re, sys

crates = {p.parent.parent.name: p for p in pathlib.Path("crates").glob("*/src/lib.rt")}

# Abandoned words, each with its replacement and its crates, by name or by layer, `*` for all. Behind `but` stand identifiers
# and crates that mean something else by it. A word is a part of an identifier, in snake or in camel case.
OLD = """
gate gates: * -> commit byte
seat seats seated: * -> record handle
shelf shelves: * -> record table, contents
taker takers: * -> visitor
holdings: * -> loaded store
lent lends lend: * -> borrowed
wish wishes wished: * -> query
extent: * -> query kind
mentions: * -> unresolved references
place places: * but put_in_place -> offset, position, rank, index, bucket, location
piece pieces: * but vunit_hints -> segment, lexical element, pattern part
carry carried carries carrying: * -> compaction
core: * but memory_children -> scheduler state
book books: * -> progress, log
mark marks marked: * but byte_order_mark tests_outside -> status, fingerprint, magic, delimiter, flag
noted: run vunit report store system project -> first fault
job jobs: run_spec run_scheduler run_laws but Jobs BenchJobs -> workload
row: run_scheduler run_tests -> scheduler
placed: store run -> located
"""

def block(text, start):
    """What stands between the brace at start and the one that closes it."""
    depth = 0
    for end in range(start, len(text)):
        depth += (text[end] == "{") - (text[end] == "}")
        if depth == 0:
            return text[start + 1:end]
    return text[start + 1:]

def clauses(text, start):
    """The clauses of the function whose name stands before start."""
    for found in re.compile(r"\b(ensures|requires)\b[^{;]*\{|\{|\bfn\b").finditer(text, start):
        if found.start() >= start:  # not inside the clause before
            if found[1] is None:
                return
            yield (inside := block(text, found.end() - 1))
            start = found.end() + len(inside)

pages = [pathlib.Path("docs/proof", name).read_text() for name in ("HEADLINE.md", "DEFINITIONS.md")]
explained, heading = set(), ""
for item in re.split(r"\n(?=- |#)|\n\n", "\n\n".join(pages)):
    heading = item if item.startswith("#") else heading
    if re.search(r"`\w+/specs|the same file|specs/", item + heading) or re.search(r"specs", heading):
        explained |= {word for code in re.findall(r"\*\*`([^`]+)`\*\*", item) for word in re.findall(r"\w+", code)}
missing = {}
LEFT_OUT = ("tests_", "bench_", "memory_", "generated_")
for crate, root in crates.items():
    if crate.startswith(LEFT_OUT):
        continue
    lib = root.read_text()
    tests = {*re.findall(r"#\[cfg\(test\)\]\s*mod (\w+);", lib)}
    public = {w for use in re.findall(r"pub use ([^;]+);", lib) for w in re.findall(r"\w+", use)}
    public_modules = set(re.findall(r"pub mod (\w+);", lib)) | {"lib"}
    for path in (p for p in root.parent.rglob("*.rt") if not tests & {p.stem, *p.parts}):
        text, names, modules = re.sub(r"//.*", "", path.read_text()), {}, set()
        use = r"ghost use Rattle\.(\w+)\.specs\.([\w.]+?)(?:\.\{([^}]*)\}| as (\w+));"
        for of, module, braces, alias in re.findall(use, text):
            if of in crates and not module.startswith(("declared", "Types")):  # types
                modules |= {alias} - {""}
                names |= {item.split()[-1]: item.split()[0] for item in braces.split(",") if item.strip()}
        cited = [block(text, t.end() - 1) for t in re.finditer(r"^pub trait [^{]*\{", text, re.M)]
        for fn in re.finditer(r"^( *)pub (?:extern \"C\" )?fn (\w+)", text, re.M):
            types = re.findall(r"^impl(?:<[^{]*?>)? (\w+)", text[:fn.start()], re.M)
            if path.stem in public_modules or (types[-1] if fn[1] else fn[2]) in public:
                cited += clauses(text, fn.end())
        for word in re.findall(r"[\w.]+", " ".join(cited)):
            first, _, rest = word.partition(".")
            name = rest if first in modules else names.get(first)
            if name and name not in explained:
                missing.setdefault(name, str(path))
for name, path in sorted(missing.items()):
    print(f"docs/proof explains no {name}, which a public clause of {path} cites")
import collections

def words_of(identifier):
    return {word.lower() for word in re.findall(r"[A-Z]?[a-z]+|[A-Z]+(?![a-z])", identifier)}

def code_of(path):
    """A source without comments and texts."""
    text = path.read_text()
    if path.suffix == ".rt":
        return re.sub(r'//[^\n]*|b?"(?:[^"\\]|\\.)*"', " ", text)
    return re.sub(r'--[^\n]*|"(?:[^"\\]|\\.)*"', " ", text)

rows = []
for line in OLD.strip().splitlines():
    words, rest = line.split(": ", 1)
    scope, said = rest.split(" -> ")
    where, _, but = scope.partition(" but ")
    rows.append((set(words.split()), where.split(), set(but.split()), said))
every = set().union(*(row[0] for row in rows))

def come_back(crate, identifiers):
    """The old words among identifiers of a crate: identifier, and what is said instead."""
    for identifier in sorted(identifiers):
        if words := words_of(identifier) & every:
            for old, where, but, said in rows:
                here = "*" in where or crate in where or crate.split("_")[0] in where
                if here and words & old and identifier not in but and crate not in but:
                    yield identifier, said

found = collections.defaultdict(set)
for crate in crates:
    for path in (p for part in ("src", "specs", "proofs") for p in pathlib.Path("crates", crate, part).rglob("*") if p.suffix in (".rt", ".antt")):
        found[crate] |= set(re.findall(r"[A-Za-z_]\w*", code_of(path))) | {path.stem} | set(path.parts[3:-1])
back = 0
for crate in sorted(found):
    for identifier, said in come_back(crate, found[crate]):
        print(f"{crate} has {identifier}, which is an old word: {said}")
        back += 1
# (each row is tried once, in a crate of its scope)
for old, where, _, said in rows:
    crate = next(c for c in sorted(crates) if not c.startswith("tests_") and ("*" in where or c in where or c.split("_")[0] in where))
    for word in old:
        if not any(hit == (f"find_{word}_of", said) for hit in come_back(crate, {f"find_{word}_of"})):
            print(f"a planted {word} in {crate} is not found")
            back += 1
sys.exit(1 if missing or back else 0)
END
