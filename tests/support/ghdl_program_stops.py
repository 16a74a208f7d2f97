"""Stops the program while it runs benches without end with GHDL, at moments at which all run and at some by chance: no process
and no folder is left, and the next run passes. Works in the present folder."""

import os, random, signal, subprocess, time

from ghdl_bench_texts import bench, loop_of
from ghdl_left import MARK, left, see_nothing
from ghdl_trial import with_ghdl
from trial import PROGRAM, end, expect, project

CASES = ["one", "two", "three", "four"]
# (the folder has a file only where they go on for ever)
text = bench(loop_of([(name, "goes_on;") for name in CASES]),
             "    procedure goes_on is\n      file data : text;\n      variable status : file_open_status;\n    begin\n"
             "      file_open(status, data, tb_path(runner_cfg) & \"endless\", read_mode);\n"
             "      while status = open_ok loop\n      end loop;\n    end procedure;")
project("stops", {"vunit.toml": with_ghdl({"tb_lib": ["tests/*.vhd"]}, ["ghdl_bench", MARK]), "tests/tb.vhd": text,
                  "tests/endless": ""})
results = [f"stops/vunit_out/tests/tb_lib.tb.{name}/vunit_results" for name in CASES]
expect("a build", "stops", 0, "Compiling into tb_lib: tests/tb.vhd passed\nCompile passed\n", "--compile")
chance = random.Random(29)
for number in (signal.SIGTERM, signal.SIGINT, signal.SIGHUP, signal.SIGKILL):
    for moment in (None, chance.uniform(0, 0.6), chance.uniform(0, 0.6)):
        for path in results:
            if os.path.exists(path):
                os.remove(path)
        usual = lambda: [signal.signal(one, signal.SIG_DFL) for one in (signal.SIGINT, signal.SIGHUP, signal.SIGTERM)]
        program = subprocess.Popen([PROGRAM, "-p", "64"], cwd="stops", stdin=subprocess.DEVNULL, stdout=subprocess.DEVNULL,
                                   preexec_fn=usual)
        if moment is None:
            while not all(map(os.path.exists, results)):
                time.sleep(0.01)
            assert len(left()) >= 4 * len(CASES), left()
        else:
            time.sleep(moment)
        program.send_signal(number)
        code = program.wait(20)
        assert code == -number, f"{number} at {moment}: {code}"
        see_nothing(f"{number} at {moment}")
os.remove("stops/tests/endless")
passes = "".join(f"pass tb_lib.tb.{name}\n" for name in CASES)
expect("the next run", "stops", 0,
       f"Re-compile not needed\n{passes}==== Summary\npass 4 of 4\nfail 0 of 4\nskip 0 of 4\nAll passed!\n")
end()
