# The layers of docs/ARCHITECTURE.md hold. The first word of each crate's name is a layer, and crates.txt lists the crates in
# the order of the layers. A crate, and its tests, uses only crates of earlier lines, in its own layer or a lower one. There are
# at most 66 crates, 45 in the program, and 12 in the longest chain of the program. Two of the 66 are for the layer `session`,
# whose texts and script share no code. Then wrong lines are planted in copies of crates.txt; each must be named. Prints what isn't so. Ends with 0, with 1 where something isn't, and with 77 where python3 is
# missing.
cd -- "${TOP:-$(dirname -- "$0")/..}" || exit 1
. tests/support/needs.sh
needs python3
exec python3 - <<'END'
import pathlib, re, sys

MOST_CRATES, MOST_IN_PROGRAM, MOST_IN_CHAIN = 66, 45, 12
page = pathlib.Path("docs/ARCHITECTURE.md").read_text()
table = re.search(r"^\| Layer \|.*?\n\n", page, re.M | re.S)
layers = re.findall(r"^\| `(\w+)` \|", table[0], re.M) if table else []
lines = [line for line in pathlib.Path("crates.txt").read_text().splitlines() if line and not line.startswith("#")]


def layer(crate):
    word = crate.split("_")[0]
    return layers.index(word) if word in layers else -1


def faults(lines):
    """What is wrong with the lines of crates.txt, and counts: crates, those of the program, its longest chain."""
    wrong, uses, program = [], {}, {}
    for line in lines:
        used, _, only_tests = line.partition("#")
        head, _, used = used.partition(":")
        name = head.split()[0]
        if layer(name) < 0:
            wrong.append(f"the first word of {name} is no layer")
        if uses and layer(name) < layer(list(uses)[-1]):
            wrong.append(f"{name} stands behind {list(uses)[-1]}, whose layer is higher")
        uses[name] = used.split()
        program[name] = set(uses[name]) - set(only_tests.split())
    for name in uses:
        earlier = list(uses)[:list(uses).index(name)]
        for used in (used for used in uses[name] if used in uses):
            if layer(used) > layer(name):
                wrong.append(f"{name} uses {used}, whose layer is higher")
            elif used not in earlier:
                wrong.append(f"{name} uses {used}, which stands behind it")
    reached, depth = ["vunit_run"], {}
    for name in reached:
        reached += [used for used in program.get(name, ()) if used in uses and used not in reached]
    for name in uses:
        depth[name] = 1 + max((depth.get(used, 0) for used in program[name]), default=0)
    counts = len(uses), len(reached), depth.get("vunit_run", 0)
    for what, count, most in zip(("crates", "crates of the program", "crates in its longest chain"), counts, (MOST_CRATES, MOST_IN_PROGRAM, MOST_IN_CHAIN)):
        if count > most:
            wrong.append(f"{count} {what} are more than {most}")
    return wrong, counts


def planted(wanted, change):
    """Whether one changed list of lines gives this fault."""
    return wanted in faults(change(list(lines)))[0]


wrong, counts = faults(lines)
if not layers:
    wrong.append("docs/ARCHITECTURE.md has no table of layers")
add = lambda crate, used: lambda all: [line.replace(f"{crate}:", f"{crate}: {used}", 1) if line.startswith(f"{crate}:") else line for line in all]
cases = {
    "vhdl_lex uses run_spec, whose layer is higher": add("vhdl_lex", "run_spec"),
    "vhdl_lex uses vhdl_graph, which stands behind it": add("vhdl_lex", "vhdl_graph"),
    "the first word of build_more is no layer": lambda all: [*all, "build_more: base"],
    "store_more stands behind tests_more, whose layer is higher": lambda all: [*all, "tests_more: base", "store_more: base"],
    "77 crates are more than 66": lambda all: [*all, *(f"tests_{at}: base" for at in range(77 - len(all)))],
}
wrong += [f"a planted fault is not named: {wanted}" for wanted, change in cases.items() if not planted(wanted, change)]
print(*wrong, sep="\n", end="\n" if wrong else "")
print("{} crates in {} layers, {} in the program, {} in its longest chain; {} planted faults are named".format(counts[0], len(layers), *counts[1:], len(cases)))
sys.exit(1 if wrong else 0)
END
