#!/bin/sh
# Files that tests need, by the real program: which are listed, compiled and left with `-m`, in projects that are written out, and in
# random ones, where a plain model finds them.
. "$TOP/tests/support/needs.sh"
needs python3
PYTHONPATH=$TOP/tests/support exec python3 -B - <<'END'
import os, random

from growth import grows
from trial import end, expect, fail, project, run, toml, write


def bench(name, declared="", head=""):
    return f"{head}entity {name} is generic (runner_cfg : string); end;\narchitecture a of {name} is\n{declared}begin\np : process begin if run(\"x\") then null; end if; end process;\nend;\n"


def component(name):
    return f"component {name} is end component;\n"


def listed(names):
    return "".join(f"{name}\n" for name in names) + f"Listed {len(names)} files\n"


def compiled(names):
    return "".join(f"Compiling into {name.replace(', ', ': ')} passed\n" for name in names) + "Compile passed\n"


# A component brings an entity, this its architecture, this a package, and this its body.
project("small", {
    "vunit.toml": toml({"lib": ["*.vhd"]}),
    "leaf.vhd": "entity leaf is end;\n",
    "leaf_a.vhd": "architecture rtl of leaf is constant k : integer := work.pack.c; begin end;\n",
    "odd.vhd": "entity odd is end;\n",
    "other_tb.vhd": bench("other_tb"),
    "pack.vhd": "package pack is end;\n",
    "pack_body.vhd": "package body pack is end;\n",
    "tb.vhd": bench("tb", component("leaf")),
})
of_tb = ["lib, leaf.vhd", "lib, pack.vhd", "lib, leaf_a.vhd", "lib, pack_body.vhd", "lib, tb.vhd"]
of_all = ["lib, leaf.vhd", "lib, odd.vhd", "lib, other_tb.vhd", "lib, pack.vhd", "lib, leaf_a.vhd", "lib, pack_body.vhd", "lib, tb.vhd"]
expect("all files", "small", 0, listed(of_all), "-f")
expect("the files that one test needs", "small", 0, listed(of_tb), "-f", "-m", "lib.tb.*")
expect("the files that all tests need", "small", 0, listed([name for name in of_all if name != "lib, odd.vhd"]), "-f", "--minimal")
expect("no test, no file", "small", 0, listed([]), "-f", "-m", "nothing")
expect("a list of tests is as ever", "small", 0, "lib.other_tb.x\nlib.tb.x\nListed 2 tests\n", "-l", "-m")
expect("nothing to compile", "small", 0, "Re-compile not needed\n", "--compile", "-m", "nothing")
expect("only those are compiled", "small", 0, compiled(of_tb), "--compile", "-m", "lib.tb.*")
expect("and not again", "small", 0, "Re-compile not needed\n", "--compile", "-m", "lib.tb.*")
expect("then the others", "small", 0, compiled(["lib, odd.vhd", "lib, other_tb.vhd"]), "--compile")
write("small", {"odd.vhd": "entity odd is end; -- changed\n"})
expect("what no test needs stays out of date", "small", 0, "Re-compile not needed\n", "--compile", "-m")
expect("until all is built", "small", 0, compiled(["lib, odd.vhd"]), "--compile")
write("small", {"odd.vhd": "foo"})
expect("what is wrong with it is said", "small", 1, "vunit_run: lib, odd.vhd: no design unit at 0\n", "-f", "-m", error="odd.vhd:1:1: lib, odd.vhd: no design unit at 0\n")

# In a listed project a file needs all before it.
project("in_order", {
    "vunit.csv": "lib,odd.vhd\nlib,tb.vhd\nlib,leaf.vhd\n",
    "leaf.vhd": "entity leaf is end;\n",
    "odd.vhd": "entity odd is end;\n",
    "tb.vhd": bench("tb"),
})
expect("all before a test", "in_order", 0, listed(["lib, odd.vhd", "lib, tb.vhd"]), "-f", "-m")

# There several entities may have one name: a component may be bound to each, so all before the last are needed.
project("of_one_name", {
    "vunit.csv": "".join(f"lib,{name}.vhd\n" for name in ("a", "tb", "b", "odd", "c", "last")),
    "a.vhd": "entity leaf is end;\n",
    "b.vhd": "entity leaf is end;\n",
    "c.vhd": "entity LEAF is end;\n",
    "last.vhd": "entity leaves is end;\n",
    "odd.vhd": "entity odd is end;\n",
    "tb.vhd": bench("tb", component("leaf")),
})
expect("entities of one name", "of_one_name", 0, listed([f"lib, {name}.vhd" for name in ("a", "tb", "b", "odd", "c")]), "-f", "-m")

# Faults of files that no test needs are reported; a component without a name does not count.
project("wrong", {"vunit.toml": toml({"lib": ["*.vhd"]}), "tb.vhd": bench("tb", "component is end component;\ncomponent end component;\n"), "is.vhd": "entity \\is\\ is end;\n"})
expect("components without names", "wrong", 0, listed(["lib, tb.vhd"]), "-f", "-m")
write("wrong", {"p.vhd": "use work.q.all;\npackage p is end;\n", "q.vhd": "use work.p.all;\npackage q is end;\n"})
for words in ["-f"], ["--compile"], []:
    expect("files in a circle", "wrong", 1, "vunit_run: cycle\n  lib, p.vhd\n  lib, q.vhd\n", *words, "-m")
os.remove("wrong/q.vhd")
write("wrong", {"p.vhd": "entity p is end;\narchitecture a of p is begin u : entity work.gone; end;\n"})
for words in ["-f"], ["--compile"], []:
    expect("a missing unit", "wrong", 1, "vunit_run: lib, p.vhd: no unit lib.gone\n", *words, "-m")

# As many cases as may be, and one more.
for count, status, text in (65536, 0, listed(["lib, tb.vhd"])), (65537, 5, "vunit_run: over limit: tests 65536\n"):
    calls = "".join(f'if run("{at}") then end if;\n' for at in range(count))
    project("cases", {"vunit.toml": toml({"lib": ["*.vhd"]}),
                      "tb.vhd": f"entity tb is generic (runner_cfg : string); end;\narchitecture a of tb is begin\np : process begin\n{calls}end process;\nend;\n"})
    expect(f"{count} cases", "cases", status, text, "-f", "-m")


def named(at):
    return "e" + "".join("0123456789abcdefghijklmnopqrstuvwxyz"[at // step % 36] for step in (1296, 36, 1))


def bound(count, others):
    """So many files, each with an entity whose architecture has components of so many others, the next ones; the first is a bench."""
    files = {"vunit.toml": toml({"lib": ["*.vhd"]})}
    for at in range(count):
        body = "".join(f"l:component {named((at + other + 1) % count)};\n" for other in range(others))
        generic, call = ("generic (runner_cfg : string); ", 'p:process begin if run("x") then end if; end process;\n') if at == 0 else ("", "")
        files[f"{named(at)}.vhd"] = f"entity {named(at)} is {generic}end;\narchitecture a of {named(at)} is begin\n{call}{body}end;\n"
    return files, 0, listed([f"lib, {named(at)}.vhd" for at in range(count)]), ""


grows("files that all bind each other", lambda count: bound(count, count - 1), (750, 1500), "-f", "-m")
grows("files that each bind 800 others", lambda count: bound(count, 800), (1024, 4096), "-f", "-m")


def generated(chance):
    """A random project: its files by library and path, what each needs itself, and which have tests."""
    files, needs, entities, architectures, packages, bodies, components, tests = {}, {}, {}, {}, {}, {}, {}, {}

    def add(library, path, text, on=()):
        name = f"{library}, {path}"
        files[name] = text
        needs[name] = set(on)
        return name

    for library in "ab":
        for at in range(3):
            if chance.random() < 0.7:
                packages[library, f"p{at}"] = add(library, f"{library}_p{at}.vhd", f"package p{at} is end;\n")
                if chance.random() < 0.6:
                    bodies[library, f"p{at}"] = add(library, f"{library}_p{at}_body.vhd", f"package body p{at} is end;\n", [packages[library, f"p{at}"]])

    def inside(library, sees):
        """Declarations, with what they use and the components that they name."""
        text, on = "", []
        for (where, name), file in packages.items():
            if where in sees and chance.random() < 0.15:
                text += f"constant k_{where}_{name} : integer := {'work' if where == library else where}.{name}.c;\n"
                on.append(file)
        names = [name for name in ("c0", "c1", "c2", "c3") if chance.random() < 0.2]
        return text + "".join(component(chance.choice([name, name.upper()])) for name in names), on, names

    def head(library):
        other = "b" if library == "a" else "a"
        return (f"library {other};\n", {library, other}) if chance.random() < 0.4 else ("", {library})

    for library in "ab":
        for name in ("c0", "c1", "c2", "c3"):
            if chance.random() < 0.6:
                before, sees = head(library)
                entities[library, name] = add(library, f"{library}_{name}.vhd", f"{before}entity {name} is end;\n")
                for at in range(chance.randrange(3)):
                    more, also = head(library)
                    text, on, names = inside(library, sees | also)
                    file = add(library, f"{library}_{name}_{at}.vhd", f"{more}architecture a{at} of {name} is\n{text}begin end;\n", [entities[library, name], *on])
                    architectures.setdefault((library, name), []).append(file)
                    components[file] = sees | also, names
        for at in range(2):
            before, sees = head(library)
            text, on, names = inside(library, sees)
            file = add(library, f"{library}_t{at}.vhd", bench(f"t{at}", text, before), on)
            components[file] = sees, names
            tests[f"{library}.t{at}.x"] = file
    for key, file in entities.items():
        needs[file] |= set(architectures.get(key, ()))
    for key, file in bodies.items():
        needs[packages[key]].add(file)
    for file, (sees, names) in components.items():
        needs[file] |= {entities[library, name] for library in sees for name in names if (library, name) in entities}
    return files, needs, tests


for seed in range(400):
    chance = random.Random(seed)
    files, needs, tests = generated(chance)
    project("random", {"vunit.toml": toml({"a": ["a_*.vhd"], "b": ["b_*.vhd"]}), **{name.split(", ")[1]: text for name, text in files.items()}})
    status, order, _error = run("random", "-f")
    order = order.decode().splitlines()[:-1]
    if status != 0 or sorted(order) != sorted(files):
        fail(f"project {seed}", f"its files aren't listed: {status} {order}")
        continue
    asked = [test for test in tests if chance.random() < 0.4]
    needed, left = set(), [tests[test] for test in asked]
    while left:
        file = left.pop()
        if file not in needed:
            needed.add(file)
            left += needs[file]
    expect(f"project {seed}", "random", 0, listed([name for name in order if name in needed]), "-f", "-m", *(asked or ["nothing"]))
    if seed < 6:
        text = compiled([name for name in order if name in needed]) if needed else "Re-compile not needed\n"
        expect(f"a build of project {seed}", "random", 0, text, "--compile", "-m", *(asked or ["nothing"]))
end()
END
