"""Tries GHDL_BENCH_KEEP and GHDL_BENCH_WORDS of wrappers/ghdl_bench: the kept files repeat a run, and words record and change
no verdict. Works in the present folder."""

import os, subprocess

import ghdl_bench_texts as texts
from bench_requests import SIMULATOR, Run, build
from ghdl_bench_texts import bench, loop_of

TMP = os.path.abspath("tmp")
os.mkdir(TMP)
os.environ["TMPDIR"] = TMP
os.environ["VUNIT_RUN_ID"] = "of this test"
PSL = bench(loop_of([("passes", "check(true); wait for 20 ns;"), ("fails", "info(\"before\"); check_equal(1, 2);")]), concurrent="""
  clk <= not clk after 1 ns when now < 10 ns;
  -- psl default clock is (clk'event and clk = '1');
  -- psl assert always clk = '1';""")
NAMES = "--wave=, --vcd=, --fst=, --read-wave-opt=, --write-wave-opt=, --psl-report="


def with_words(words, keep=None):
    given = {**os.environ, "GHDL_BENCH_WORDS": words}
    return {**given, "GHDL_BENCH_KEEP": keep} if keep else given


os.makedirs("a folder, of \"quotes\"")
os.chdir("a folder, of \"quotes\"")
passes, fails = (Run(build([(b"lib", b"src/n.vhd", b"package n is\nend package;\n"), (b"tb_lib", b"tb.vhd", PSL.encode(), ["-fpsl"])]),
                     b"tb_lib", b"tb", b"sim", [name]) for name in (b"passes", b"fails"))
plain = {run: (run.start(), run.verdicts()) for run in (passes, fails)}
assert [verdicts for _, verdicts in plain.values()] == ["p", "f"]

# Each word, and what it leaves; the verdict, the code and the text stay.
for words, names in [("--wave=w.ghw", ["w.ghw"]), ("--vcd={output}v.vcd", ["v.vcd"]), ("--fst=f.fst", ["f.fst"]),
                     ("--write-wave-opt=options", ["options"]), ("--psl-report=report.json", ["report.json"]),
                     ("  --wave=a/b/w.ghw   --vcd=v.vcd ", ["a", "v.vcd"]), ("--vcd={output}a/../v.vcd", ["a", "v.vcd"]), ("", [])]:
    for run, (ran, verdicts) in plain.items():
        got = run.start(env=with_words(words))
        assert (got[0], run.verdicts()) == (ran[0], verdicts) and got[1] == ran[1], (words, got, ran)
        left = sorted(name.decode() for name in os.listdir(run.folder) if name not in (b"output.txt", b"run.txt", b"vunit_results"))
        # (a folder that a path only goes through is made, or isn't)
        assert set(names) - {"a"} <= set(left) <= {*names, "a"}, (words, left)
with open("signals.opt", "w") as file:
    file.write("$ version 1.1\n/tb/clk\n")
assert passes.start(env=with_words("--read-wave-opt=signals.opt --wave=w.ghw"))[0] == 0
assert 0 < os.path.getsize(passes.folder + b"w.ghw")

# All other words, and files elsewhere or that the run needs, are refused by name, and nothing has run.
for word in ["--stop-time=1ns", "--assert-level=none", "-gx=1", "--wave", "--wave=", "x.vhd", "--ieee-asserts=disable", "--frob=1",
             "--vpi=x.so", "--disp-tree=inst", "--backtrace-severity=note", "--wavex=1"]:
    said = f"ghdl_bench: GHDL_BENCH_WORDS: {word} isn't one of {NAMES}\n"
    assert passes.start(env=with_words(f"--wave=w.ghw {word}")) == (1, said.encode(), b"") and passes.verdicts() == "f", word
for value in ["../w.ghw", "/tmp/w.ghw", "{output}../w.ghw", "{output}/../../w.ghw", "a/../../w.ghw", ".", "a/..", "{output}", "..",
              "vunit_results", "output.txt", "./output.txt", "{output}vunit_results", "x/../output.txt", "libraries/tb_lib-obj08.cf"]:
    said = f"ghdl_bench: GHDL_BENCH_WORDS: {value} leads out of the folder of the run, or is a file that the run needs\n"
    assert passes.start(env=with_words(f"--wave={value}")) == (1, said.encode(), b"") and passes.verdicts() == "f", value
    assert not os.path.exists("w.ghw") and not os.path.exists("../w.ghw")
assert passes.start(env=with_words("--read-wave-opt=nowhere"))[:2] == (1, b"ghdl_bench: GHDL_BENCH_WORDS: nowhere can't be read\n")
# What was refused is in the data of the run, by which a report says why.
with open(passes.folder + b"run.txt") as file:
    assert "\ncase fail passes\nerror GHDL_BENCH_WORDS:=20nowhere=20can't=20be=20read" in file.read()

# Kept files: the printed command repeats the run, from any folder and with more words; the next run keeps nothing.
for run, (ran, verdicts) in plain.items():
    code, output, _ = run.start(env=with_words("--wave=w.ghw", keep="1"))
    assert (code, run.verdicts()) == (ran[0], verdicts) and not os.listdir(TMP), output
    (line,) = [line for line in output.decode().split("\n") if line.startswith("(to repeat it: ")]
    assert output.replace(line.encode() + b"\n", b"") == ran[1], (output, ran[1])
    with open(run.folder + b"output.txt", "rb") as file:
        log = file.read()
    os.remove(run.folder + b"w.ghw")
    repeated = subprocess.run(line.removeprefix("(to repeat it: ").removesuffix(")"), shell=True, capture_output=True)
    assert (repeated.returncode, repeated.stdout + repeated.stderr) == (code, log), (repeated, log)
    assert os.path.exists(run.folder + b"w.ghw")
    words = ["sh", os.path.abspath(os.fsdecode(run.folder) + "repeat"), "--vcd=" + os.path.abspath("by_hand.vcd")]
    assert subprocess.run(words, cwd="/", capture_output=True).returncode == code and os.path.getsize("by_hand.vcd") > 0
    os.remove("by_hand.vcd")
    assert sorted(os.listdir(run.folder)) == [b"libraries", b"output.txt", b"repeat", b"run.txt", b"vunit_results", b"w.ghw"]
    run.start(env=with_words("", keep="0"))
    assert sorted(os.listdir(run.folder)) == [b"output.txt", b"run.txt", b"vunit_results"]

# A folder that GHDL doesn't take is named.
os.makedirs("€")
os.chdir("€")
said = b"ghdl_bench: GHDL takes no byte 130 in the name of a folder: keep no libraries there\n"
assert passes.start(env=with_words("", keep="1")) == (1, said, b"")
