"""Runs the program over projects that GHDL compiles: the example, the IEEE library that comes with GHDL, and projects made
from seeds. Which files are started is compared with lists that are written by hand. Works in the present folder."""

import glob, os, re, shutil, subprocess
import seeded_project
from ghdl_steps import FRESH, TOP, check, edit, passed, run


# The example: all files in the order of compilation, and after each edit the started ones.
PATHS = ["counter/counter_pkg", "counter/counter_context", "counter/counter", "counter/counter_model",
         "counter/counter_as_model", "counter/counter_pkg_body", "counter/counter_rtl", "board/board"]
EDITS = [
    ("a body", "counter/counter_pkg_body", "(count + 1) mod 16", "(count + 1) mod (count_t'high + 1)",
     ["counter/counter_pkg_body"]),
    ("a package", "counter/counter_pkg", "0 to 15", "0 to 31", PATHS),
    ("a comment", "counter/counter_rtl", "as it is built", "that is built", ["counter/counter_rtl"]),
    ("a comment in the package", "counter/counter_pkg", "package counter_pkg is", "package counter_pkg is  -- counts", ["counter/counter_pkg"]),
    ("an architecture", "counter/counter_rtl", "now <= 0;", "now <= 0 + 0;", ["counter/counter_rtl", "board/board"]),
    ("an entity", "counter/counter", "entity counter is", "entity counter is\n  generic (step : positive := 1);",
     ["counter/counter", "counter/counter_model", "counter/counter_as_model", "counter/counter_rtl", "board/board"]),
    ("a context", "counter/counter_context", "  library ieee;", "  library ieee, std;",
     ["counter/counter_context", "counter/counter", "counter/counter_model", "counter/counter_as_model",
      "counter/counter_rtl", "board/board"]),
]


def lines_of(paths):
    return [f"Compiling into {path.split('/')[0]}_lib: {path}.vhd passed" for path in paths]


shutil.copytree(f"{TOP}/examples/ghdl_counter", "example")
check("the example", run("example"), (0, [*lines_of(PATHS), "Compile passed"]))
check("the example again", run("example"), FRESH)
for name, path, old, new, started in EDITS:
    edit(f"example/{path}.vhd", old, new)
    check(name, run("example", "-p", "4"), (0, [*lines_of(started), "Compile passed"]))
    check(f"{name}, again", run("example", "-p", "4"), FRESH)

# What GHDL refuses is said with the user's path; with -k what doesn't depend on it is compiled.
edit("example/counter/counter_rtl.vhd", "now <= next_of(now);", "now <= next_of(later);")
edit("example/counter/counter_model.vhd", "-- The counter", "-- A counter")
edit("example/counter/counter_model.vhd", "main : process", "meant : process")
edit("example/counter/counter_model.vhd", "end process main", "end process meant")
edit("example/counter/counter_pkg_body.vhd", "(count + 1)", "(1 + count)")
refused = ['counter/counter_rtl.vhd:13:24: no declaration for "later"', "        now <= next_of(later);", " " * 23 + "^"]
check("a refusal", run("example", "-k"), (1, [
    *lines_of(["counter/counter_model", "counter/counter_as_model", "counter/counter_pkg_body"]),
    "Compiling into counter_lib: counter/counter_rtl.vhd failed", *refused,
    "Compiling into board_lib: board/board.vhd skipped", "Compile failed"]))
edit("example/counter/counter_rtl.vhd", "now <= next_of(later);", "now <= next_of(now);")
check("mended", run("example", "-k"), (0, [*lines_of(["board/board"]), "Compile passed"]))

# The IEEE library. What depends on math_real through packages and their bodies is written out here.
config = subprocess.run(["ghdl", "--disp-config"], stdout=subprocess.PIPE, text=True).stdout
folder = re.search(r"^library directory: *(.*)", config, re.MULTILINE)[1]
sources = glob.glob(f"{folder}/src/ieee2008/*.vhdl")
assert len(sources) == 24, f"GHDL brings {len(sources)} files of the IEEE library"
os.mkdir("ieee")
for source in sources:
    shutil.copy(source, "ieee")
with open("ieee/vunit.toml", "w") as file:
    file.write('compiler = ["ghdl_analyse", "-Wno-hide"]\nusers_depend_on_bodies = true\n'
               '[[library]]\nname = "ieee"\nfiles = ["*.vhdl"]\n')
status, lines = run("ieee", "-p", "4")
names = [os.path.basename(source) for source in sources]
check("the IEEE library", (status, sorted(lines)), (0, sorted([*passed("ieee", names), "Compile passed"])))
check("the IEEE library again", run("ieee", "-p", "4"), FRESH)
edit("ieee/math_real.vhdl", "package MATH_REAL is", "package MATH_REAL is  -- edited")
check("a comment in math_real", run("ieee", "-p", "4"), (0, [*passed("ieee", ["math_real.vhdl"]), "Compile passed"]))
edit("ieee/math_real.vhdl", "package MATH_REAL is  --", "package  MATH_REAL is  --")
users = ["math_real", "math_real-body", "math_complex", "math_complex-body", "fixed_generic_pkg-body", "fixed_pkg",
         "float_generic_pkg", "float_generic_pkg-body", "float_pkg"]
status, lines = run("ieee", "-p", "4")
users = passed("ieee", [f"{user}.vhdl" for user in users])
check("math_real", (status, sorted(lines)), (0, sorted([*users, "Compile passed"])))
check("math_real, again", run("ieee", "-p", "4"), FRESH)

# The order that is found in projects made from seeds is one that GHDL takes.
for seed in range(8):
    seeded_project.make(f"seed{seed}", seed, 20)
    status, lines = run(f"seed{seed}", "-p", "4")
    assert status == 0 and len(lines) == 21 and lines[-1] == "Compile passed", "\n".join([f"seed {seed}", *lines])
