"""Benches in VHDL, each kind with the verdicts of its cases by hand: p passed, f failed, s skipped. `ghdl_benches` hands them to
the wrapper, and `ghdl_program` has the program run them."""

BENCH = """library ieee;
use ieee.std_logic_1164.all;
use ieee.numeric_std.all;
library vunit_lib;
context vunit_lib.vunit_context;
use std.textio.all;
use std.env.all;

entity tb is
  generic (runner_cfg : string);
end entity;

architecture sim of tb is
  signal clk : bit := '0';
%s
begin
  main : process
%s
  begin
    test_runner_setup(runner, runner_cfg);
    while test_suite loop
%s
    end loop;
    test_runner_cleanup(runner);
  end process;
%s
end architecture;
"""
# What stands before a bench whose cases run in one simulation.
IN_ONE = "-- vunit: run_all_in_same_sim\n"


def bench(loop, variables="", declarations="", concurrent=""):
    return BENCH % (declarations, variables, loop, concurrent)


def ending(text, run, said, path="tb.vhd"):
    """The end of the text about a failed run of the bench with this text, if only the wrapper names a cause: this, where the
    output is, and the cause at the line of the architecture."""
    line = 1 + text[: text.index("architecture ")].count("\n")
    message = said.replace("ghdl_bench: ", "", 1)
    return f"{said}(all of the output is in vunit_out/tests/{run}/output.txt)\n{path}:{line}: {message}"


def loop_of(cases):
    """The loop's text of (name, statements)."""
    choices = ["      %s run(\"%s\") then\n        %s" % ("elsif" if at else "if", name.replace('"', '""'), statements)
               for at, (name, statements) in enumerate(cases)]
    return "\n".join(choices) + "\n      end if;"


# (what is run, statements, verdict, code, what the output holds)
CASES = [
    ("passes", "check_equal(1, 1); info(\"all is well\");", "p", 0, ["0 fs - default - INFO - all is well"]),
    ("has a wrong check", "wait for 3 ns; check_equal(1, 2, result(\"of ones\"));", "f", 1,
     ["3 ns - check - ERROR - Equality check failed of ones - Got 1. Expected 2."]),
    ("waits for the watchdog", "wait;", "f", 1, ["1 ms - default - ERROR - the watchdog ended the simulation"]),
    ("asserts with failure", "assert false report \"my words\" severity failure;", "f", 1, ["my words"]),
    ("asserts with error", "assert false report \"my words\" severity error;", "f", 1, ["my words"]),
    ("asserts with warning", "assert false report \"my words\" severity warning;", "p", 0, ["my words"]),
    ("divides by zero", "zero := 0; zero := 1 / zero;", "f", None, ["raised CONSTRAINT_ERROR"]),
    ("is out of range", "small := 9; small := small + to_integer(unsigned'(\"11\"));", "f", 1, ["bound check failure"]),
    ("finishes without cleanup", "finish;", "f", 0, ["ghdl_bench: the bench ended without test_runner_cleanup"]),
    ("finishes with 3", "finish(3);", "f", 3, ["simulation finished @0ms with status 3\n"]),
    ("finishes with the code of no answer", "finish(75);", "f", 1, ["simulation finished @0ms with status 75\n"]),
    ("goes on in deltas", "loop wait for 0 ns; end loop;", "f", 0,
     ["by --stop-delta=5000\n", "ghdl_bench: the bench ended without test_runner_cleanup\n"]),
    ("sets a longer limit", "set_timeout(runner, 3 ms); wait for 2 ms;", "p", 0, []),
    ("sets a shorter limit", "set_timeout(runner, 3 us); wait for 4 us;", "f", 1, ["3 us - default - ERROR - the watchdog"]),
    ("fails in another process", "clk <= '1'; wait for 1 us; clk <= '0'; wait for 1 us;", "f", 1,
     ["1 us - check - ERROR - Unconditional check failed in the other process"]),
    ("is failed by a warning", "set_stop_level(warning); warning(\"too much\");", "f", 1, ["WARNING - too much"]),
    ("has errors below the stop level", "set_stop_level(failure); error(\"first\"); wait for 1 ns; error(\"second\");", "f", 1,
     ["0 fs - default - ERROR - first", "1 ns - default - ERROR - second", "found 2 errors"]),
    ("sets up twice", "test_runner_setup(runner, runner_cfg);", "f", 1, ["test_runner_setup was called twice"]),
    ("cleans up within", "test_runner_cleanup(runner); ", "p", 0, []),
    ("is told of a failure", "test_runner_cleanup(runner, external_failure => true);", "f", 1, ["test_runner_cleanup was told of a failure\n"]),
    ("commas, and : colons, \"quotes\"", "check_equal(running_test_case, \"commas, and : colons, \"\"quotes\"\"\");", "p", 0, []),
    (",begins with a comma", "", "p", 0, []),
    ("ends with a comma,", "", "p", 0, []),
    ("* = - é", "", "p", 0, []),
    ("reads and writes files",
     "file_open(data, tb_path(runner_cfg) & \"data.txt\", read_mode); readline(data, text_line); file_close(data);"
     " file_open(data, output_path(runner_cfg) & \"copied.txt\", write_mode); writeline(data, text_line); file_close(data);"
     " check(active_python_runner(runner_cfg));", "p", 0, []),
]
OF_CASES = bench(loop_of([(name, statements) for name, statements, *_ in CASES]),
                 "    variable zero : integer;\n    variable small : integer range 0 to 10;\n    file data : text;\n"
                 "    variable text_line : line;",
                 concurrent="  process\n  begin\n    wait until clk = '1';\n    wait until clk = '0';\n"
                 "    check_failed(result(\"in the other process\"));\n  end process;\n  test_runner_watchdog(runner, 1 ms);")
# The file beside that bench, and where the last case copies it.
DATA = "from the folder of the bench\n"
COPIED = "vunit_out/tests/tb_lib.tb.reads=20and=20writes=20files/copied.txt"
# The line of the wrong check.
WRONG_LINE = 1 + OF_CASES[: OF_CASES.index("check_equal(1, 2")].count("\n")

# Without an end of its own: in no time, and in output for ever.
ENDLESS = bench(loop_of([("no time", "loop null; end loop;"),
                         ("much output", "loop info(\"again and again and again\"); end loop;")]))
NO_TIME = "ghdl_bench: the bench was ended, since it took over 1 seconds of processor time\n"
MUCH_OUTPUT = ["(the last lines of ", "output.txt)", "INFO - again and again and again\n",
               "ghdl_bench: the bench was ended, since it printed over 67108864 bytes\n"]

# Much output before a failing check: its end is put.
PRINTS_AND_FAILS = bench("      for number in 1 to 1000 loop\n        info(\"number \" & to_string(number));\n      end loop;\n"
                         "      check_failed(\"at last\");")
PRINTED = ["INFO - number 1000", "check - ERROR - at last", "at tb.vhd:"]

# A bench without cases; one whose case has no literal name; one that does nothing; one that starts no case.
WHOLE = bench("      check(true);")
WHOLE_FAILS = bench("      check(false);")
NO_LITERAL = bench("      if run(\"a \" & \"name\") then\n        check(false);\n      end if;")
NOTHING = "entity tb is\n  generic (runner_cfg : string);\nend;\narchitecture sim of tb is\nbegin\nend;\n"
NOTHING_SAYS = "ghdl_bench: the bench ended without test_runner_setup: there are no results\n"
NEVER_STARTS = IN_ONE + bench("      if count = 1 then\n        check(run(\"a\") or run(\"b\"));\n      end if;",
                              "    variable count : natural := 0;")
NEVER_STARTED = "ghdl_bench: 2 cases were never started, the first of them: a\n"

# All cases in one simulation: the third fails, or all pass.
IN_ONE_CASES = ["one", "two, too", "three", "four"]
IN_ONE_FAILS = IN_ONE + bench(loop_of([("one", ""), ("two, too", "check(count = 1);"),
                                       ("three", "check(count /= 2, result(\"of three\"));"), ("four", "")])
                              + "\n      count := count + 1;", "    variable count : natural := 0;")
IN_ONE_PASSES = IN_ONE_FAILS.replace("/= 2", "= 2")
# Errors below the stop level belong to the case that was running; those before the first case belong to that one.
WITH_ERRORS = IN_ONE + bench(loop_of([(name, "%s") for name in IN_ONE_CASES])).replace(
    "    while test_suite", "    set_stop_level(failure);\n    %s\n    while test_suite")
TWO_ERRORS = "error(\"first\"); wait for 1 ns; error(\"second\");"
IN_ONE_ERRORS = [(WITH_ERRORS % tuple(TWO_ERRORS if at == place else "" for at in range(5)), verdicts, said)
                 for place, verdicts, said in [(0, "fsss", "test_suite found 2 errors in the log at the end of one\n"),
                                               (1, "fsss", "test_suite found 2 errors in the log at the end of one\n"),
                                               (2, "pfss", "test_suite found 2 errors in the log at the end of two, too\n"),
                                               (3, "ppfs", "test_suite found 2 errors in the log at the end of three\n"),
                                               (4, "pppf", "test_runner_cleanup found 2 errors in the log\n")]]
MANY_CASES = [f"case number {number}, of many" for number in range(1000)]
MANY = IN_ONE + bench(loop_of([(name, "") for name in MANY_CASES]))

# Extended names of bench, architecture and unit under test, in a library of several files whose paths have odd bytes.
EXTENDED_BENCH = bench("      wait for 1 ns;\n      check_equal(q, 7);", declarations="  signal q : integer;",
                       concurrent="  dut : entity lib.\\a \"b\"\\\\c\\ port map (q);").replace(
                       "sim of tb is", "\\sim; x\\ of tb is").replace(" tb is", " \\TB -x\\ is").replace(
                       "library vunit_lib", "library lib, vunit_lib")
EXTENDED = [("lib", "src/p €/\"q\".vhd", "package p is\n  constant seven : integer := 7;\nend;\n"),
            ("lib", "src/a.vhd", "entity \\a \"b\"\\\\c\\ is\n  port (q : out integer);\nend;\n"),
            ("lib", "src/b.vhd", "architecture \\of\\ of \\a \"b\"\\\\c\\ is\nbegin\n  q <= work.p.seven;\nend;\n"),
            ("tb_lib", "täst/tb.vhd", EXTENDED_BENCH)]

# A bench with a component that is bound by default, the files that it needs in compile order; and one that GHDL refuses.
BOUND = {
    "leaf.vhd": "entity leaf is port (value : out integer); end;\n",
    "numbers.vhd": "package numbers is constant seven : integer := 7; end;\n",
    "leaf_rtl.vhd": "architecture rtl of leaf is begin value <= work.numbers.seven; end;\n",
    "tb.vhd": bench(loop_of([("sees seven", "wait for 1 ns; check_equal(value, 7);")]),
                    declarations="  component leaf is port (value : out integer); end component;\n  signal value : integer := 0;",
                    concurrent="  bound : leaf port map (value => value);"),
}
UNBOUND = "entity other is port (value : out nothing_of_that_name); end;\n"
