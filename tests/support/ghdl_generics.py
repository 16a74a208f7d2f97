"""Benches with generics of their own in one run, by the program with GHDL: which words reach which bench, with verdicts by hand. The
names of cases say what they check, so a verdict says which value came. Works in the present folder."""

import os

from ghdl_generics_texts import bench
from ghdl_trial import check, with_ghdl
from trial import end, fail, project, run, write

FILES = ["tb_lib: tb/tb_deep.vhd", "tb_lib: tb/tb_one.vhd", "tb_lib: tb/tb_paths.vhd", "tb_lib: tb/tb_wide.vhd"]


WIDE = "; Width : integer := 1; flag : boolean := false; title : string := \"none\""
TB_WIDE = bench("tb_wide", WIDE, [("width 1", "check_equal(width, 1);"), ("width 7", "check_equal(width, 7);"),
                                  ("flag, title a b", "check(flag); check_equal(title, \"a b\");")])
# (an entity need not begin a line)
TB_DEEP = "package deep_pkg is end; /* entity tb_deep is */ " + bench("tb_deep", "; depth : integer", [("depth 3", "check_equal(depth, 3);"), ("depth 4", "check_equal(depth, 4);")])
TB_ONE = bench("tb_one", "; width : integer := 1", [("width 1", "check_equal(width, 1);"), ("runs", "null;")],
               "-- vunit: run_all_in_same_sim")
# (a path is absolute, and what lies there can be read and written)
TB_PATHS = bench("tb_paths", "; tb_path : string; output_path : string", [
    ("reads", "file_open(status, input, tb_path & \"in.txt\", read_mode); check(status = open_ok);\n"
     "        check(tb_path(1) = '/' and tb_path(tb_path'right) = '/');"),
    ("writes", "file_open(status, output, output_path & \"out.txt\", write_mode); check(status = open_ok);\n"
     "        check_equal(output_path(output_path'right), '/');")])
TB_PATHS = TB_PATHS.replace("  main : process\n", "  main : process\n    use std.textio.all;\n    file input, output : text;\n"
                            "    variable status : file_open_status;\n")

NAMES = [("tb_lib.tb_deep", "depth 3"), ("tb_lib.tb_deep", "depth 4"), ("tb_lib.tb_one", "width 1"), ("tb_lib.tb_one", "runs"),
         ("tb_lib.tb_paths", "reads"), ("tb_lib.tb_paths", "writes"), ("tb_lib.tb_wide", "width 1"), ("tb_lib.tb_wide", "width 7"),
         ("tb_lib.tb_wide", "flag, title a b")]
NO_DEPTH = "-gdepht=3: no bench among the files has a generic depht (with -m, use --in=LIBRARY.BENCH:-gdepht=3)\n"


def try_words(name, words, verdicts, texts=(), only=None):
    """Runs the project with these words of the simulator, and all cases, or those at some positions. A text is shown before
    each case that fails, and a list has parts of that text, by the position of the case; of others nothing is compared."""
    at_positions = range(len(NAMES)) if only is None else only
    project("p", {"vunit.toml": with_ghdl({"tb_lib": ["tb/*.vhd"]}, ["ghdl_bench", *words]), "tb/tb_wide.vhd": TB_WIDE,
                  "tb/tb_deep.vhd": TB_DEEP, "tb/tb_one.vhd": TB_ONE, "tb/tb_paths.vhd": TB_PATHS, "tb/in.txt": "x\n"})
    texts = dict(texts)
    rows = [(*NAMES[at], verdict, texts.get(at, [] if verdict != "p" else "")) for at, verdict in zip(at_positions, verdicts)]
    check(name, "p", FILES, rows, *([] if only is None else [".".join(NAMES[at]) for at in only]))


# (GHDL takes the leftmost value of a type if a generic lacks one)
NO_VALUE = {at: [f"Got -2147483648. Expected {at + 3}."] for at in (0, 1)}
try_words("none", [], "ffpppppff", NO_VALUE)
if not os.path.exists("p/vunit_out/tests/tb_lib.tb_paths.writes/out.txt"):
    fail("none", "the generic output_path led elsewhere")
try_words("generics of two benches", ["-gdepth=3", "-gWIDTH=7", "-gflag=true", "-gtitle=a b"], "pffsppfpp")
try_words("misspelt", ["-gdepht=3"], "fffff", {at: "ghdl_bench: " + NO_DEPTH for at in (0, 2, 4, 6)}, [0, 2, 3, 4, 6])
try_words("of some", ["--in=tb_lib.tb_deep:-gdepth=4", "--in=*.width 7:-gwidth=7", "--in=*.flag*:-gflag=true --key=1"], "fpppppppf")
try_words("the last counts", ["--in=*.tb_deep:-gdepth=3", "-gdepth=9", "--in=*.depth 4:-gdepth=4"], "pppppppff")
try_words("a bench without it", ["--in=tb_lib.tb_*:-gdepth=3"], "pfffff",
          {at: f"ghdl_bench: -gdepth=3: the bench tb_lib.{name} has no generic depth\n" for at, name in [(4, "tb_paths"),
                                                                                                       (6, "tb_wide")]}, [0, 1, 2, 3, 4, 6])
IN_ONE = "ghdl_bench: --in=*.tb_one.runs:-gwidth=1 names a case of tb_lib.tb_one, whose cases run in one simulation: name the bench\n"
try_words("a case in one simulation", ["-gdepth=3", "--in=*.tb_one.runs:-gwidth=1"], "pfffpppff", {2: IN_ONE})
try_words("limits and data of one", ["-gdepth=3", "--in=*.tb_wide:--stop-time=1ns --cpu-limit=9 --data=tb/in.txt"], "pfpppppff")
for word, why in [("-gwidth", "isn't -gNAME=VALUE, with a name that isn't extended"), ("-g\\w\\=1", "isn't -gNAME=VALUE, with a name "
                  "that isn't extended"), ("-gtitle=", "has no value: GHDL takes none that is empty"),
                  ("--data=../x", "doesn't name files below the project"),
                  ("-goutput_path=x", "isn't for the project file: it names a file, a library or the runner's generic")]:
    try_words(word, [word], "ff", {at: f"ghdl_bench: {word} {why}\n" for at in (4, 6)}, [4, 6])
try_words("a byte that GHDL doesn't take", ["-gtitle=\u20ac"], "pf", {6: "ghdl_bench: GHDL takes no byte 130 in a generic: "
                                                                    "title=\u20ac\n"}, [4, 6])

# With -m the bench that has the generic is left out, and the text says what to write in its place.
project("m", {"vunit.toml": with_ghdl({"tb_lib": ["tb/*.vhd"]}, ["ghdl_bench", "-gdepth=3"]), "tb/tb_wide.vhd": TB_WIDE,
              "tb/tb_deep.vhd": TB_DEEP})
WITH_M = "ghdl_bench: -gdepth=3: no bench among the files has a generic depth (with -m, use --in=LIBRARY.BENCH:-gdepth=3)\n"
check("with -m", "m", ["tb_lib: tb/tb_wide.vhd"], [("tb_lib.tb_wide", "width 1", "f", WITH_M)], "-m", "*.width 1")

# --key=WORD is nothing to a wrapper, and another request to the runner: what it is among the words of is compiled, or run, anew.
KEYED = [f"Compiling into tb_lib: tb/tb_{name}.vhd passed" for name in ("deep", "wide")]
for key, compiled in (("1", [*KEYED, "Compile passed"]), ("1", ["Re-compile not needed"]), ("2", [*KEYED, "Compile passed"])):
    write("m", {"vunit.toml": with_ghdl({"tb_lib": ["tb/*.vhd"]}).replace('"ghdl_analyse"', f'"ghdl_analyse", "--key={key}"')})
    got = run("m", "--compile")
    if got != (0, "".join(f"{line}\n" for line in compiled).encode(), b""):
        fail(f"with the key {key}", got)
end()
