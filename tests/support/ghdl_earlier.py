"""Builds a project with the wrapper of before and goes on with the one of today: what was compiled is refused by its library and
path, until the store is emptied once. Works in the present folder."""

import os

from ghdl_trial import TOP, with_ghdl
from trial import end, expect, project, write

# Artefacts of before differ from those of today by the number of their form, where no word and no unseen library is noted.
BEFORE = f"""#!/usr/bin/env python3
import subprocess, sys
request = sys.stdin.buffer.read().replace(b"ghdl_analyse 1 ", b"ghdl_analyse 2 ")
ran = subprocess.run(["{TOP}/wrappers/ghdl_analyse", *sys.argv[1:]], input=request, stdout=subprocess.PIPE)
sys.stdout.buffer.write(ran.stdout.replace(b"ghdl_analyse 2 ", b"ghdl_analyse 1 ", 1))
sys.exit(ran.returncode)
"""
BENCH = """library lib, vunit_lib;
context vunit_lib.vunit_context;
entity tb is
  generic (runner_cfg : string);
end entity;
architecture sim of tb is
begin
  main : process
  begin
    test_runner_setup(runner, runner_cfg);
    check_equal(lib.q.d, 2);
    test_runner_cleanup(runner);
  end process;
end architecture;
"""
USER = "package q is\n  constant d : integer := work.p.c + 1;\nend package q;\n"
write("before", {"ghdl_analyse": BEFORE})
os.chmod("before/ghdl_analyse", 0o755)
before = {**os.environ, "PATH": f"{os.path.abspath('before')}:{os.environ['PATH']}"}

project("project", {
    "vunit.toml": with_ghdl({"lib": ["src/*.vhd"], "tb_lib": ["tb.vhd"]}),
    "src/p.vhd": "package p is\n  constant c : integer := 1;\nend package p;\n", "src/q.vhd": USER, "tb.vhd": BENCH})
files = ["lib: src/p.vhd", "lib: src/q.vhd", "tb_lib: tb.vhd"]
built = "".join(f"Compiling into {file} passed\n" for file in files) + "Compile passed\n"
passes = "pass tb_lib.tb.all\n==== Summary\npass 1 of 1\nfail 0 of 1\nskip 0 of 1\nAll passed!\n"
fails = "fail tb_lib.tb.all\n==== Summary\npass 0 of 1\nfail 1 of 1\nskip 0 of 1\nSome failed!\n"
earlier = "lib, src/p.vhd: made by an earlier ghdl_analyse: run once with --clean\n"
expect("a build with the wrapper of before", "project", 0, built, "--compile", env=before)
expect("a run with that of today", "project", 1, f"Re-compile not needed\nghdl_bench: {earlier}{fails}")
write("project", {"src/q.vhd": USER.replace("+ 1", "+ 1 * 1")})
expect("an edit, and the wrapper of today", "project", 1,
       f"Compiling into lib: src/q.vhd failed\nghdl_analyse: {earlier}Compile failed\n")
expect("--clean", "project", 0, built + passes, "--clean")
expect("and again", "project", 0, "Re-compile not needed\n" + passes)
end()
