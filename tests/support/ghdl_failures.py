"""The texts about benches that fail, each kind with its last line by hand: where and why. Works in the present folder."""

import os, sys

from bench_requests import SIMULATOR, Run, build
from ghdl_bench_texts import bench, loop_of

TMP = os.path.abspath("tmp")
os.mkdir(TMP)
os.environ["TMPDIR"] = TMP
PACKAGE = """package pk is
  procedure must(x : integer);
  function f(x : integer) return integer;
end package;
package body pk is
  procedure must(x : integer) is
  begin
    assert x = 1 report "must be one" severity error;
  end procedure;
  function f(x : integer) return integer is
    variable s : integer range 0 to 3;
  begin
    s := x;
    return s;
  end function;
end package body;
"""
ENTITY = """entity ent is
  port (go : in boolean);
end entity;
architecture rtl of ent is
begin
  g : for i in 0 to 1 generate
    p : process
    begin
      wait until go;
      assert false report "ent is wrong" severity failure;
    end process;
  end generate;
end architecture;
"""
# (name, statements, the file and what stands at the line that is named, and the message)
BENCH, PK, ENT = "tests/tb.vhd", "src/pk.vhd", "src/ent.vhd"
CASES = [
    ("a vector of 32 bits", "check_equal(v, std_logic_vector'(x\"DEADBEE0\"), result(\"of v\"));", BENCH, "check_equal(v, std",
     'Equality check failed of v - Got x"DEADBEEF" (3735928559). Expected x"DEADBEE0" (3735928544).'),
    ("a vector of 9 bits", "check_equal(n, unsigned'(\"011111111\"));", BENCH, "check_equal(n, uns",
     'Equality check failed - Got x"1FE" (510). Expected x"0FF" (255).'),
    ("a vector of 8 bits", "check_equal(v(7 downto 0), std_logic_vector'(x\"EE\"));", BENCH, "check_equal(v(7",
     "Equality check failed - Got 1110_1111 (239). Expected 1110_1110 (238)."),
    ("a vector with other values", "check_equal(m, std_logic_vector'(x\"000\"));", BENCH, "check_equal(m, std",
     'Equality check failed - Got x"0XZ" (NaN). Expected x"000" (0).'),
    ("an integer like a vector", "check_equal(i, 100000000);", BENCH, "check_equal(i, 1",
     "Equality check failed - Got 100000001. Expected 100000000."),
    ("a message with lines", "check(false, \"---------- 1010 ----------\");", BENCH, "check(false, \"---", "---------- 1010 ----------"),
    ("in a procedure", "local_check;", BENCH, "check_true(i < 0, \"locally\")", "locally"),
    ("in a package", "lib.pk.must(3);", PK, "assert x = 1", "must be one"),
    ("out of range", "i := lib.pk.f(9);", PK, "    s := x;", "bound check failure"),
    ("in an entity", "go <= true; wait;", ENT, "assert false report \"ent", "ent is wrong"),
    ("of several lines", "error(\"one\" & LF & \"  two\");", BENCH, "error(\"one\"", "one two"),
    ("an assertion of several lines", "assert false report \"my\" & LF & \"own\" severity failure;", BENCH, "assert false report \"my\"",
     "my own"),
    ("of another logger", "info(\"all is well\"); failure(get_logger(\"mine\"), \"it isn't\");", BENCH, "failure(get_logger",
     "it isn't"),
    ("by a warning", "set_stop_level(warning); warning(\"too much\");", BENCH, "warning(\"too much\")", "too much"),
    ("by the watchdog", "wait;", BENCH, "  test_runner_watchdog(runner",
     "the watchdog ended the simulation: it took longer than its limit"),
    ("at last", "set_stop_level(failure); error(\"first\"); check_equal(i, 3);", BENCH, "    test_runner_cleanup(runner);",
     "test_runner_cleanup found 2 errors in the log, the first of them: 0 fs - default - ERROR - first"),
    ("without a reason", "finish(3);", BENCH, "architecture sim of tb", "the simulation ended with code 3"),
    ("without cleanup", "finish;", BENCH, "architecture sim of tb", "the bench ended without test_runner_cleanup"),
]
VARIABLES = """    variable v : std_logic_vector(31 downto 0) := x"DEADBEEF";
    variable n : unsigned(8 downto 0) := "111111110";
    variable m : std_logic_vector(11 downto 0) := "00000000ZZZZ";
    variable i : integer := 100000001;
    procedure local_check is
    begin
      check_true(i < 0, "locally");
    end procedure;"""
TEXT = bench(loop_of([(name, statements) for name, statements, *_ in CASES]).replace(
    "check_equal(m,", "m(4) := 'X'; check_equal(m,"), VARIABLES, "  signal go : boolean;",
    "  dut : entity lib.ent port map (go);\n  test_runner_watchdog(runner, 1 us);").replace("library vunit_lib", "library lib, vunit_lib")
SOURCES = {BENCH: TEXT, PK: PACKAGE, ENT: ENTITY}
# Another file of the same name, in the same library: the unit tells which one is meant.
TWIN = "package twin is\nend package;\n"


def line_of(path, part):
    before, found, _ = SOURCES[path].partition(part)
    assert found, (path, part)
    return 1 + before.count("\n")


files = [(b"lib", PK, PACKAGE), (b"lib", "src/other/pk.vhd", TWIN), (b"lib", ENT, ENTITY), (b"tb_lib", BENCH, TEXT)]
built = build([(library, path.encode(), text.encode()) for library, path, text in files])
for name, _, path, part, message in CASES:
    run = Run(built, b"tb_lib", b"tb", b"sim", [name.encode()], b"tests/tb.vhd")
    code, output, errors = run.start()
    lines = output.decode().split("\n")
    assert run.verdicts() == "f" and not errors, (name, output, errors)
    wanted = [f"(all of the output is in {run.folder.decode()}output.txt)", f"{path}:{line_of(path, part)}: {message}", ""]
    assert lines[-3:] == wanted, f"{name}: {output.decode()} and not {wanted}"
    with open(run.folder + b"output.txt", "rb") as file:
        log = file.read()
    # What GHDL says of the packages that are called is in the file alone.
    assert b"vunit_lib." not in output and b"_pkg.vhd" not in output, output
    assert (b"  from: vunit_lib." in log) == (part.lstrip().startswith(("check", "error", "fail", "warn", "test"))), (name, log)
    for line in log.split(b"\n"):
        assert line in output or line.startswith((b"  from: vunit_lib.", b"stop_pkg.vhd:")), (name, line)

# A package of the project that has the name of one of vunit_lib's files: its place stays.
files = [(b"tb_lib", path, b"package %s is\n  procedure note_it;\nend;\npackage body %s is\n  procedure note_it is\n  begin\n"
          b"    report \"noted in %s\" severity note;\n  end;\nend;\n" % (name, name, name))
         for name, path in [(b"logger", b"logger_pkg.vhd"), (b"own", b"own_pkg.vhd")]]
text = bench("      work.own.note_it; work.logger.note_it; check(false);")
run = Run(build([*files, (b"tb_lib", b"tb.vhd", text.encode())]), b"tb_lib", b"tb", b"sim", [])
_, output, _ = run.start()
assert output.startswith(b"own_pkg.vhd:7:5:@0ms:(report note): noted in own\nlogger_pkg.vhd:7:5:@0ms:(report note): noted in logger\n"), output

# The words of VUnit's own library, which a project may have in place of the other.
own = b"""package core_pkg is
  procedure core_failure(msg : string);
  procedure check(expr : boolean);
end package;
library std;
use std.textio.all;
package body core_pkg is
  procedure core_failure(msg : string) is
  begin
    report msg severity failure;
  end;
  procedure check(expr : boolean) is
    variable l : line;
  begin
    if not expr then
      write(l, string'("                 0 fs - check                -   ERROR - Check failed - of VUnit"));
      writeline(output, l);
      core_failure("Stop simulation on log level error");
    end if;
  end;
end package body;
"""
text = b"entity tb is\n  generic (runner_cfg : string);\nend;\narchitecture sim of tb is\nbegin\n  process\n  begin\n" \
       b"    vunit_lib.core_pkg.check(false);\n    wait;\n  end process;\nend;\n"
run = Run(build([(b"vunit_lib", b"vunit/core_pkg.vhd", own), (b"tb_lib", b"tb.vhd", b"library vunit_lib;\n" + text)]),
          b"tb_lib", b"tb", b"sim", [])
_, output, _ = run.start()
assert output.endswith(b"\ntb.vhd:9: Check failed - of VUnit\n") and b"vunit_lib." not in output, output

# A long log: its first error, and its end.
LONG = bench("      set_stop_level(failure);\n      info(\"the beginning\");\n      error(\"the first error\");\n"
             "      for number in 1 to 20_000 loop\n        info(\"number \" & to_string(number));\n      end loop;\n"
             "      check_failed(\"the last error\");")
run = Run(build([(b"tb_lib", b"tb.vhd", LONG.encode())]), b"tb_lib", b"tb", b"sim", [])
code, output, _ = run.start()
size = os.path.getsize(run.folder + b"output.txt")
lines = output.decode().split("\n")
assert size > 400_000 and 3000 < len(output) <= 4096, (size, len(output))
assert lines[:2] == ["0 fs - default - ERROR - the first error",
                     f"(the last lines of {size} bytes, all in vunit_out/tests/tb_lib.tb/output.txt)"], lines[:3]
line = 1 + LONG[: LONG.index("    test_runner_cleanup(runner)")].count("\n")
assert lines[-2:] == [f"tb.vhd:{line}: test_runner_cleanup found 2 errors in the log, the first of them: "
                      "0 fs - default - ERROR - the first error", ""], lines[-3:]
assert "0 fs - check - ERROR - the last error" in lines and "0 fs - default - INFO - the beginning" not in lines

# GHDL refuses a bench before it simulates it: a generic has no value.
text = bench("      check(true);").replace("(runner_cfg", "(words : string; runner_cfg")
run = Run(build([(b"tb_lib", b"tb.vhd", text.encode())]), b"tb_lib", b"tb", b"sim", [])
code, output, _ = run.start()
last = output.decode().split("\n")[-2]
line = 1 + text[: text.index("architecture ")].count("\n")
assert run.verdicts() == "f" and last == f"tb.vhd:{line}: top-level generic 'words' must be overriden (use -gGEN=VAL)", output

# A GHDL with which the wrappers weren't tried is named where a case fails, and nowhere else.
os.mkdir("other")
with open("other/ghdl", "w") as file:
    file.write("#!/bin/sh\n[ \"$1\" != --version ] || { echo 'GHDL 9.9.1 (of this test)'; echo ' mcode code generator'; exit; }\n"
               f"PATH={os.environ['PATH']} exec ghdl \"$@\"\n")
os.chmod("other/ghdl", 0o755)
other = {**os.environ, "PATH": os.path.abspath("other") + os.pathsep + os.environ["PATH"]}
NAMED = b"(GHDL 9.9.1 mcode wasn't tried with these wrappers: tests/try_ghdl tries it)"
for statement, verdict in (("check(true);", "p"), ("check(false);", "f")):
    run = Run(build([(b"tb_lib", b"tb.vhd", bench(f"      {statement}").encode())]), b"tb_lib", b"tb", b"sim", [])
    assert NAMED not in run.start()[1]
    code, output, _ = run.start(env=other)
    assert run.verdicts() == verdict and output.split(b"\n").count(NAMED) == (verdict == "f"), output
    assert verdict == "p" or output.split(b"\n")[-3] == NAMED, output
sys.path.insert(0, os.path.dirname(SIMULATOR))
import ghdl_version

assert ghdl_version.untried(os.path.abspath("other/ghdl")) == NAMED.decode()[1:-1]
assert ghdl_version.untried("/nowhere/ghdl") == ghdl_version.untried("false") == ""

# A message of any length and bytes is one line.
for text in ("x" * 9_000, "\x01\xe9 \t" * 100):
    source = bench(f"      check_failed(\"{text}\");" if text[0] == "x" else
                   "      check_failed(string'(1 to 3 => character'val(1), 4 to 5 => LF, 6 to 9 => character'val(233)));")
    run = Run(build([(b"tb_lib", b"tb.vhd", source.encode("latin-1"))]), b"tb_lib", b"tb", b"sim", [])
    code, output, _ = run.start()
    last = output.split(b"\n")[-2]
    assert len(output) <= 4096 and last.startswith(b"tb.vhd:") and len(last) <= 1_024 and output.endswith(b"\n"), output[-1_500:]
