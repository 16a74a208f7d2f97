"""Which files GHDL compiles after edits of one that others use, by what the wrapper makes of it: its text without comments. Works in the
present folder."""

from ghdl_steps import FRESH, check, edit, passed, run
from trial import project, toml, write

PACKAGE = """-- A package of counts.
package p is
  constant c : integer := 1;  -- a count
  -- what follows
  constant d : integer := 2; /* another */
  /* five */ constant e : integer := 5;
end package p;
"""
COUNT = "library lib;\n\nentity {name} is\nend entity {name};\n\narchitecture a of {name} is\n  constant k : integer := {value};\nbegin\nend architecture a;\n"
# Three users in the package's own library, and two in another; v does not use it.
USERS = {"lib": ["u1", "u2", "u3"], "top": ["u4", "u5"]}
FILES = {f"{library}/{name}.vhd": COUNT.format(name=name, value=f"lib.p.{'cde'[at % 3]}") for library, names in USERS.items() for at, name in enumerate(names)}
FILES |= {"lib/p.vhd": PACKAGE, "lib/v.vhd": COUNT.format(name="v", value="1")}
ONE, ALL = ["lib/p"], ["lib/p", "lib/u1", "lib/u2", "lib/u3", "top/u4", "top/u5"]

# An edit of the package, and what is compiled after it; and after it is undone.
ROWS = [
    ("a comment is added at the end of a line", "package p is\n", "package p is  -- of counts\n", ONE),
    ("a comment is changed at the end of a line", "-- a count\n", "-- one count, of which this says more\n", ONE),
    ("a comment is removed at the end of a line", "  -- a count\n", "\n", ONE),
    ("a comment is changed on its own line", "  -- what follows\n", "-- d is what follows\n", ONE),
    ("a comment is added behind one", "/* another */", "/* another */ -- and so on", ONE),
    ("a block comment is changed at the end of a line", "/* another */", "/* another one */", ONE),
    ("a block comment is changed before something, in its length", "/* five */", "/* FIVE */", ONE),
    ("a block comment before something gets longer", "/* five */", "/* fifth */", ALL),
    ("a comment is added on a line of its own", "  -- what follows\n", "  -- what follows\n  -- is this\n", ALL),
    ("a comment is removed with its line", "  -- what follows\n", "", ALL),
    ("a comment is removed, and its line stays", "  -- what follows\n", "\n", ONE),
    ("blanks at the end of a line", "package p is\n", "package p is \t\n", ONE),
    ("blanks inside a line", "constant c :", "constant  c :", ALL),
    ("a line more behind all", "end package p;\n", "end package p;\n\n", ALL),
    ("a constant", "integer := 1", "integer := 3", ALL),
    ("a blank less before a comment", ";  -- a count\n", "; -- a count\n", ONE),
    ("a comment becomes a constant", "  -- what follows\n", "  constant f : integer := 2;\n", ALL),
]



def lines_in(files):
    """What is printed of files, each of which is its library and its name, that are all compiled."""
    return 0, [*(line for file in files for line in passed(file.split("/")[0], [f"{file}.vhd"])), "Compile passed"]


project("users", FILES | {"vunit.toml": toml({"lib": ["lib/*.vhd"], "top": ["top/*.vhd"]}, ["ghdl_analyse"])})
check("six files and one alone", run("users", "-p", "4"), lines_in([*ALL[:4], "lib/v", *ALL[4:]]))
for name, old, new, started in ROWS:
    assert PACKAGE.count(old) == 1, old
    for what, text in (name, PACKAGE.replace(old, new)), (name + ", and back", PACKAGE):
        write("users", {"lib/p.vhd": text})
        check(what, run("users", "-p", "4"), lines_in(started))
        check(f"{what}, again", run("users", "-p", "4"), FRESH)

# With a word that gives comments a meaning, a changed comment is a change, whether it has one or not.
CHECKED = """entity e is
  port (clk, a, b : in bit);
end entity e;

architecture rtl of e is
begin
  -- psl default clock is clk'event and clk = '1';
  -- psl assert always a -> b;
  process begin wait; end process;  -- nothing
end architecture rtl;
"""
USER = "entity {name} is end;\narchitecture a of {name} is\n  signal clk, a, b : bit;\nbegin\n  i : entity work.e(rtl) port map (clk, a, b);\nend;\n"
project("checked", {"lib/e.vhd": CHECKED, **{f"lib/{name}.vhd": USER.format(name=name) for name in ("u1", "u2")},
                    "vunit.toml": toml({"lib": ["lib/*.vhd"]}, ["ghdl_analyse", "-fpsl"])})
check("a property", run("checked"), lines_in(["lib/e", "lib/u1", "lib/u2"]))
edit("checked/lib/e.vhd", "always a -> b", "always b -> a")
check("another property", run("checked"), lines_in(["lib/e", "lib/u1", "lib/u2"]))
edit("checked/lib/e.vhd", "-- nothing", "-- nothing at all")
check("another comment", run("checked"), lines_in(["lib/e", "lib/u1", "lib/u2"]))
edit("checked/lib/e.vhd", "always b -> a", "always (b ->")
status, lines = run("checked")
assert status == 1 and lines[0] == "Compiling into lib: lib/e.vhd failed", f"a property that is none: {lines}"

# The same without the word: anything but a property does not matter.
edit("checked/vunit.toml", '"ghdl_analyse", "-fpsl"', '"ghdl_analyse"')
check("without properties", run("checked"), lines_in(["lib/e", "lib/u1", "lib/u2"]))
edit("checked/lib/e.vhd", "always (b ->", "always a -> b;")
check("a property that is a comment", run("checked"), lines_in(["lib/e"]))
