"""Runs the examples and a project as users have it by the program, with GHDL and with the children that come with the
program, each at `-p 1` and at `-p 64`, with verdicts by hand. Works in the present folder."""

import os, shutil

import ghdl_bench_texts as texts
import realistic_project
from ghdl_trial import TOP, check
from trial import end, project, write


def read(path):
    with open(path) as file:
        return file.read()


def have_ghdl(folder):
    """Has a project be compiled and run by GHDL."""
    write(folder, {"vunit.toml": 'compiler = ["ghdl_analyse"]\nsimulator = ["ghdl_bench"]\n' + read(f"{folder}/vunit.toml")})


# (a limit of one second takes less time to try)
shutil.copytree(f"{TOP}/examples/ghdl_benches", "ghdl_benches")
write("ghdl_benches", {"vunit.toml": read("ghdl_benches/vunit.toml").replace("--cpu-limit=2", "--cpu-limit=1")})
before, _, _ = read("ghdl_benches/tb/tb_timer.vhd").partition('check_equal(done, \'1\', result("after two edges"))')
line = 1 + before.count("\n")
check("ghdl_benches", "ghdl_benches", ["lib: src/timer.vhd", "tb_lib: tb/tb_timer.vhd", "tb_lib: tb/tb_timer_lengths.vhd"], [
    ("tb_lib.tb_timer", "is done after three edges", "p", ""),
    ("tb_lib.tb_timer", "begins anew when it is started again", "p", ""),
    ("tb_lib.tb_timer", "is done after two edges", "f",
     ["40 ns - check - ERROR - Equality check failed after two edges - Got 0. Expected 1.\n", f"main at tb_timer.vhd:{line}\n"]),
    ("tb_lib.tb_timer", "is done without a clock", "f", ["1 us - default - ERROR - the watchdog ended the simulation"]),
    ("tb_lib.tb_timer", "counts edges where time stands still", "f", [texts.NO_TIME]),
    *(("tb_lib.tb_timer_lengths", name, "p", "") for name in ("one edge", "seven edges", "two hundred edges"))])

# One project by two simulators: the one that comes with the program fails the third case by a comment, and GHDL finds nothing
# wrong. (The board needs a library that isn't there, and the bench doesn't need the board.)
shutil.copytree(f"{TOP}/examples/counter", "counter")
os.remove("counter/src/board.vhd")
files = ["lib: src/counter_pkg.vhd", "lib: src/counter.vhd", "tb_lib: tb/tb_counter.vhd"]
cases = ["stays at zero while it is reset", "begins again after the last number", "counts to the last number"]
by_comment = "failed tb_lib.tb_counter.counts to the last number\n"
check("counter, by the children of the program", "counter", files,
      [("tb_lib.tb_counter", *row) for row in zip(cases, "ppf", ["", "", by_comment])])
have_ghdl("counter")
check("counter, by GHDL", "counter", files, [("tb_lib.tb_counter", *row) for row in zip(cases, "ppp", ["", "", ""])])

# And the reverse: a clock that stands still does not matter to a simulator that simulates nothing.
project("realistic", realistic_project.FILES)
cases = ["reset", "count & wrap"]
check("realistic, by the children of the program", "realistic", files,
      [("tb_lib.tb_counter", *row) for row in zip(cases, "pp", ["", ""])])
have_ghdl("realistic")
check("realistic, by GHDL", "realistic", files, [
    ("tb_lib.tb_counter", "reset", "p", ""),
    ("tb_lib.tb_counter", "count & wrap", "f", ["0 fs - check - ERROR - Equality check failed - Got 0. Expected 1.\n"])])
end()
