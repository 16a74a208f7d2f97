"""Runs benches with wrappers/ghdl_bench, each kind with the verdicts of its cases by hand. Works in the present folder."""

import os, random, resource
import ghdl_bench_texts as texts
from bench_requests import Run, build
from compile_requests import compile_one, fields
from ghdl_bench_texts import bench, loop_of

tmp = os.path.abspath("tmp")
os.mkdir(tmp)
os.environ["TMPDIR"] = tmp


def check(name, run, wanted, holds=(), code=None, words=(), **settings):
    """Runs it, and compares verdicts, and what the output holds."""
    got_code, output, errors = run.start(words, **settings)
    got = run.verdicts()
    assert not os.listdir(tmp), f"{name}: left behind: {os.listdir(tmp)}"
    assert got == wanted and not errors and len(output) <= 4096 and (code is None or got_code == code), \
        f"{name}: {got} and not {wanted}, code {got_code}, output {len(output)}: {output.decode('latin-1')} {errors}"
    for part in holds:
        assert part.encode() in output, f"{name}: no {part} in: {output.decode('latin-1')}"
    return output


def runs(text, cases, in_one=False, files=()):
    built = build([*files, (b"tb_lib", b"tests/tb.vhd", text.encode())])
    names = [case.encode() for case in cases]
    groups = [names] if in_one or not names else [[name] for name in names]
    return [Run(built, b"tb_lib", b"tb", b"sim", group, b"tests/tb.vhd", in_one) for group in groups]


os.mkdir("tests")
with open("tests/data.txt", "w") as file:
    file.write(texts.DATA)
names = [name for name, *_ in texts.CASES]
for (name, _, verdict, code, holds), run in zip(texts.CASES, runs(texts.OF_CASES, names)):
    check(name, run, verdict, holds, code)
with open(texts.COPIED) as file:
    assert file.read() == texts.DATA
# the user's line, by the calls that led to the end
check("the line", runs(texts.OF_CASES, ["has a wrong check"])[0], "f", [f"main at tb.vhd:{texts.WRONG_LINE}"])

no_time, much = runs(texts.ENDLESS, ["no time", "much output"])
check("no time", no_time, "f", [texts.NO_TIME], 1, ["--cpu-limit=1"])
check("much output", much, "f", texts.MUCH_OUTPUT, 1)
assert os.path.getsize(much.folder + b"output.txt") > 67_108_864
os.remove(much.folder + b"output.txt")
output = check("prints much and fails", runs(texts.PRINTS_AND_FAILS, [])[0], "f", texts.PRINTED, 1)
assert output.startswith(b"(the last lines of ") and b"number 1\n" not in output, output

check("no cases", runs(texts.WHOLE, [])[0], "p", [], 0)
check("no cases, failing", runs(texts.WHOLE_FAILS, [])[0], "f", ["Check failed"], 1)
check("no literal", runs(texts.NO_LITERAL, [])[0], "f", ["names a case that the runner doesn't know"], 1)
check("nothing", runs(texts.NOTHING, ["a"])[0], "f", [texts.NOTHING_SAYS], 0)
check("never started", runs(texts.NEVER_STARTS, ["a", "b"], True)[0], "ss", [texts.NEVER_STARTED], 0)

# All cases in one simulation, and some of them.
check("in one, all good", runs(texts.IN_ONE_PASSES, texts.IN_ONE_CASES, True)[0], "pppp", [], 0)
check("in one, failing", runs(texts.IN_ONE_FAILS, texts.IN_ONE_CASES, True)[0], "ppfs", ["Check failed of three"], 1)
for text, verdicts, said in texts.IN_ONE_ERRORS:
    check(f"in one, errors {verdicts}", runs(text, texts.IN_ONE_CASES, True)[0], verdicts, [said], 1)
check("in one, some", runs(texts.IN_ONE_FAILS.replace("count = 1", "count = 0"), ["two, too", "four"], True)[0], "pp", [], 0)

# 1,000 cases in one simulation, in the time of the processor, since others may run.
run = runs(texts.MANY, texts.MANY_CASES, True)[0]
before = resource.getrusage(resource.RUSAGE_CHILDREN)
check("1,000 cases", run, "p" * 1000, [], 0)
after = resource.getrusage(resource.RUSAGE_CHILDREN)
used = after.ru_utime + after.ru_stime - before.ru_utime - before.ru_stime
assert used < 2, f"1,000 cases in one simulation take {used} seconds"

# Names of cases by chance, all in one simulation and one by one, and a folder that needs doubling too. (A name that begins
# with a comma can't be told from one before it that ends with one.)
chance = random.Random(5)
for _ in range(4):
    names = list(dict.fromkeys(
        "".join(chance.choice(",:ab \"-=é") for _ in range(chance.randint(1, 6))).lstrip(",") or "none" for _ in range(40)))
    text = bench(loop_of([(name, "check_equal(tb_path(runner_cfg), \"te,st: :s,/\");") for name in names]))
    built = build([(b"tb_lib", b"te,st: :s,/tb.vhd", text.encode())])
    for cases in [names, *([name] for name in chance.sample(names, 3))]:
        run = Run(built, b"tb_lib", b"tb", b"sim", [name.encode() for name in cases], b"te,st: :s,/tb.vhd", len(cases) > 1)
        check(cases, run, "p" * len(cases), [], 0)

built = build([(library.encode(), path.encode(), text.encode()) for library, path, text in texts.EXTENDED])
check("extended names", Run(built, b"tb_lib", b"\\TB -x\\", b"\\sim; x\\", [], "täst/tb.vhd".encode()), "p", [], 0)

# More sources than the wrapper holds in memory: 24 of some 200,000 bytes each once they are compressed. The bench uses the first and
# the last.
LINE = "  constant d%d : string := \"%s\";\n"
sources = [(b"lib", b"p%02d.vhd" % number, "package p{0:02} is\n  constant c{0:02} : integer := {0} + 100;\n{1}end;\n".format(
    number, "".join(LINE % (at, chance.randbytes(1_000).hex()) for at in range(190))).encode()) for number in range(24)]
alone = [build([source])[0] for source in sources]
assert sum(len(artefact) for _, _, artefact in alone) > 4_500_000, [len(artefact) for _, _, artefact in alone]
text = bench("      check_equal(lib.p00.c00 + lib.p23.c23, 223);").replace("library vunit_lib", "library lib, vunit_lib").encode()
code, artefact, said = compile_one(b"".join(fields(b"tb_lib", b"tb.vhd", text, alone)))
assert code == 0, artefact
check("many sources", Run([*alone, (b"tb_lib", b"tb.vhd", artefact)], b"tb_lib", b"tb", b"sim", []), "p", [], 0)

# Clauses of libraries that nothing uses.
text = bench("      check(true);", concurrent="  u : entity lib.e;").replace("library vunit_lib", "library lib, vunit_lib, never")
files = [(b"lib", b"e.vhd", b"library seldom, never;\nentity e is\nend;\narchitecture a of e is\nbegin\nend;\n"), (b"tb_lib", b"tb.vhd", text.encode())]
check("clauses", Run(build(files), b"tb_lib", b"tb", b"sim", []), "p", [], 0)

# A project's own vunit_lib is taken, and the one beside the wrapper isn't.
own = b"package own_pkg is\nend;\ncontext vunit_context is\n  library vunit_lib;\n  use vunit_lib.own_pkg.all;\nend;\n"
text = b"library vunit_lib;\ncontext vunit_lib.vunit_context;\nentity tb is\n  generic (runner_cfg : string);\nend;\n" \
       b"architecture sim of tb is\nbegin\n  assert false report \"my own\" severity note;\nend;\n"
run = Run(build([(b"vunit_lib", b"own.vhd", own), (b"tb_lib", b"tb.vhd", text)]), b"tb_lib", b"tb", b"sim", [])
check("its own library", run, "f", ["my own", "without test_runner_setup"], 0)

# Words of libraries reach the simulation, as do the simulator's.
loose = b"library ieee;\nuse ieee.std_logic_arith.all;\npackage a is\n  subtype u is unsigned(1 downto 0);\nend package a;\n"
psl = b"""entity p is
end;
architecture a of p is
  signal clk, x : bit;
begin
  clk <= not clk after 1 ns when now < 10 ns;
  -- psl default clock is (clk'event and clk = '1');
  -- psl assert always x = '1';
end;
"""
text = bench("      check_equal(limit, 3);\n      wait for 20 ns;", declarations="  signal s : liba.a.u;",
             concurrent="  u : entity lib.p;").replace("library vunit_lib", "library liba, lib, vunit_lib").replace(
             "(runner_cfg", "(limit : integer := 2; runner_cfg").encode()
for words, verdict, holds in [([], "p", []), (["-fpsl"], "f", ["assertion"])]:
    built = build([(b"liba", b"a.vhd", loose, ["-fsynopsys"]), (b"lib", b"p.vhd", psl, words), (b"tb_lib", b"tb.vhd", text)])
    run = Run(built, b"tb_lib", b"tb", b"sim", [])
    check(f"words of libraries {words}", run, verdict, holds, words=["-glimit=3"])
run = Run(build([(b"liba", b"a.vhd", loose, ["-fsynopsys"]), (b"lib", b"p.vhd", psl), (b"tb_lib", b"tb.vhd", text)]),
          b"tb_lib", b"tb", b"sim", [])
check("a wrong generic", run, "f", ["Got 2. Expected 3."])
check("a wave", run, "p", words=["-glimit=3", "--wave={output}wave.ghw"])
assert os.path.exists(run.folder + b"wave.ghw")
check("an end by GHDL's word", run, "f", ["the bench ended without test_runner_cleanup"], 0, ["-glimit=3", "--stop-time=5ns"])
check("assertions off", run, "f", [], 1, ["-glimit=4", "--assert-level=none"])
