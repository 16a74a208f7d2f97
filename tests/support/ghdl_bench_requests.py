"""Tries wrappers/ghdl_bench with invalid input: requests, artefacts, words, commands. Works in the present folder."""

import os, random, shutil, struct, subprocess, sys
from bench_requests import SIMULATOR, Run, build
from ghdl_bench_texts import ending

tmp = os.path.abspath("tmp")
os.mkdir(tmp)
os.environ["TMPDIR"] = tmp

BENCH = b"""library vunit_lib;
context vunit_lib.vunit_context;
entity tb is
  generic (runner_cfg : string);
end entity;
architecture sim of tb is
begin
  main : process
  begin
    test_runner_setup(runner, runner_cfg);
    while test_suite loop
      if run("one") then
        check_equal(work.p.c, 1);
      end if;
    end loop;
    test_runner_cleanup(runner);
  end process;
end architecture;
"""
FILES = [(b"tb_lib", b"src/p.vhd", b"package p is\n  constant c : integer := 1;\nend package p;\n"),
         (b"tb_lib", b"tb.vhd", BENCH)]
BAD = (2, b"bad request\n", b"")


def check(name, run, wanted, words=(), data=None, results=False, **settings):
    got = run.start(words, data, **settings)
    assert not os.listdir(tmp), f"{name}: left behind: {os.listdir(tmp)}"
    assert got == wanted, f"{name}: {got} and not {wanted}"
    assert os.path.exists(run.results) == results, f"{name}: results"


def part(value):
    return [struct.pack("<I", len(value)), value]


def request(library=b"tb_lib", bench=b"tb", architecture=b"sim", results=b"vunit_out/x/vunit_results", files=()):
    data = b"VRB1" + b"".join(b"".join(part(value)) for value in (library, bench, architecture))
    data += struct.pack("<I", 0) + b"".join(part(b"")) + b"".join(part(results)) + struct.pack("<I", len(files))
    return data + b"".join(b"".join(part(value)) for file in files for value in file)


built = build(FILES)
run = Run(built, b"tb_lib", b"tb", b"sim", [b"one"])
whole = run.request()
code, output, errors = run.start()
assert (code, run.verdicts()) == (0, "p"), (output, errors)

# Cut at each edge of a part and at seeded bytes, and followed by more.
edges = {sum(map(len, run.parts[:count])) for count in range(len(run.parts))}
for count in sorted(edges | set(random.Random(29).sample(range(len(whole)), 40))):
    check(f"cut at {count}", run, BAD, data=whole[:count])
for data in [whole + b"x", b"VRC1" + whole[4:], b"VRB2" + whole[4:]]:
    check(data[:40], run, BAD, data=data)
BAD_PARTS = {
    "library": [b"", b"../lib", b"a/b", b"1a", b"a" * 65],
    "bench": [b"", b"-x", b"t b", b"\\a", b"\\a\0\\", b"a.b"],
    "architecture": [b"", b"--help", b"\\a\\b\\"],
    "results": [b"", b"vunit_results", b"/tmp/vunit_results", b"a/../b", b"a//b", b"./a/b", b"a/", b"a/\0b"],
}
for name, values in BAD_PARTS.items():
    for value in values:
        check((name, value), run, BAD, data=request(**{name: value}))
for path in [b"", b"/a.vhd", b"a/../b.vhd", b"a//b.vhd", b"./a.vhd", b"a/.", b"a\0.vhd"]:
    check(path, run, BAD, data=request(files=[(b"tb_lib", path, built[0][2])]))

# Artefacts of others are refused by library and path, and nothing has run.
other = build([(*FILES[0], ["--std=93"])])[0]
said = b"ghdl_bench: tb_lib, src/p.vhd: %s\n"
DIFFERS = said % b"made by another compiler, or with another --std"
head, source = built[0][2].split(b"\n\n", 1)
artefacts = [(b"", DIFFERS), (b"unit package p\n", DIFFERS), (other[2], DIFFERS), (b"x" + built[0][2], DIFFERS),
             (built[0][2][:-1], DIFFERS), (built[0][2] + b"x", DIFFERS), (head + b"\n\n", DIFFERS),
             (built[0][2].replace(b" 08 ", b" 8 ", 1), DIFFERS), (built[0][2].replace(b" 08 ", b" 77 ", 1), DIFFERS),
             (built[0][2].replace(b"ghdl_analyse 2", b"ghdl_analyse 1"),
              said % b"made by an earlier ghdl_analyse: run once with --clean")]
for artefact, wanted in artefacts:
    used = [built[1], (b"tb_lib", b"src/p.vhd", artefact)]
    check(artefact[:30], Run(used, b"tb_lib", b"tb", b"sim", [b"one"]), (1, wanted, b""))
# One that the bench can't reach isn't unpacked.
unreached = (b"other", b"q.vhd", head.replace(b" p ", b" q ") + b"\n\nx")
code, output, _ = Run([*built, unreached], b"tb_lib", b"tb", b"sim", [b"one"]).start()
assert code == 0, output
# A file that is missing never gives a pass.
alone = Run(built[1:], b"tb_lib", b"tb", b"sim", [b"one"])
code, output, _ = alone.start()
assert code == 1 and alone.verdicts() == "f" and b'"p"' in output, output
none = Run([], b"tb_lib", b"tb", b"sim", [b"one"])
code, output, _ = none.start()
assert code == 1 and none.verdicts() == "f" and b"tb" in output, output

# What GHDL doesn't take by a word. (12,000 names of 108,890 bytes, 11,999 commas, each twice, and 119 bytes besides.)
many = [b"case %d" % number for number in range(12_000)]
check("many cases", Run(built, b"tb_lib", b"tb", b"sim", many, in_one=True), (1,
      b"ghdl_bench: 133007 bytes of configuration are more than a command takes: put fewer cases into one simulation\n", b""))
check("a euro", Run(built, b"tb_lib", b"tb", b"sim", ["€".encode()]), (1,
      b"ghdl_bench: GHDL takes no byte 130 in a generic: rename the case, or the folder of the bench\n", b""))

# Words.
BELONGS = b"ghdl_bench: %s isn't for the project file: it names a file, a library or the runner's generic\n"
for word in ["x.vhd", "", "--work=x", "--workdir=x", "--PREFIX=/", "-grunner_cfg=x"]:
    check(word, run, (1, BELONGS % word.encode(), b""), [word])
check("--std", run, (1, b"ghdl_bench: --std is that with which the files were compiled\n", b""), ["--std=08"])
for name, unit in [("--cpu-limit", "seconds"), ("--wall-limit", "seconds"), ("--memory-limit", "megabytes")]:
    for value in ["", "0", "x", "-1", "01", "1" * 10]:
        check((name, value), run, (1, f"ghdl_bench: {name} takes a number of {unit}, from 1 on\n".encode(), b""), [f"{name}={value}"])
code, output, _ = run.start(["--frob"])
assert code == 1 and b"frob" in output and not os.path.exists(run.results), output

# No GHDL; one that is ended; no folder for the room, none for the run.
os.mkdir("python")
os.symlink(sys.executable, "python/python3")
check("no ghdl", run, (75, b"", b"ghdl_bench: there is no command ghdl\n"), env={"PATH": os.path.abspath("python"), "TMPDIR": tmp})
check("no python3", run, (75, b"", b"ghdl_bench: there is no command python3\n"), env={"PATH": tmp, "TMPDIR": tmp})
os.mkdir("ended")
with open("ended/ghdl", "w") as file:
    # (a shell adds some of its own)
    file.write("#!/bin/sh\nread line && echo \"it has an input\"\n"
               "env | grep -c -v -e ^PWD= -e ^_= -e ^SHLVL= -e ^OLDPWD=\nkill -KILL $$\n")
os.chmod("ended/ghdl", 0o755)
said = "1\n" + ending(BENCH.decode(), "tb_lib.tb.one", "ghdl_bench: GHDL was ended by signal 9\n")
check("ended", run, (137, said.encode(), b""),
      env={**os.environ, "PATH": os.path.abspath("ended") + ":" + os.environ["PATH"]})
check("no room", run, (75, b"", b"ghdl_bench: No such file or directory (TMPDIR is /nowhere)\n"), env={**os.environ, "TMPDIR": "/nowhere"})
check("a line feed", run, (1, b"ghdl_bench: GHDL takes no line feed in the name of a folder: set TMPDIR to another\n", b""),
      env={**os.environ, "TMPDIR": tmp + "\n"})
ran = subprocess.run([SIMULATOR], input=request(results=b"vunit_out/nowhere/vunit_results", files=built), capture_output=True)
said = b"ghdl_bench: vunit_out/nowhere: No such file or directory\n"
assert (ran.returncode, ran.stdout) == (1, said) and not os.listdir(tmp), ran

os.mkdir("€")
run.prepare()
ran = subprocess.run([SIMULATOR], input=whole, capture_output=True, env={**os.environ, "TMPDIR": "€"})
assert (ran.returncode, ran.stdout) == (1, b"ghdl_bench: GHDL takes no byte 130 in the name of a folder: set TMPDIR to another\n"), ran
assert not os.listdir("€")

# A copy of a wrapper without what it needs beside it.
for name in ["ghdl_bench", "ghdl_analyse"]:
    shutil.copy(os.path.join(os.path.dirname(SIMULATOR), name), name)
    ran = subprocess.run([f"./{name}"], input=bytes(200_000), capture_output=True)
    assert (ran.returncode, ran.stdout) == (1, f"{name}: start_python.sh isn't beside it\n".encode()), ran

# A room in a folder with blanks and quotes, and a bench that is started from a link to the wrapper.
os.mkdir("a \"b\" ö")
os.symlink(SIMULATOR, "linked")
run.prepare()
ran = subprocess.run(["./linked"], input=whole, capture_output=True, env={**os.environ, "TMPDIR": "a \"b\" ö"})
run.code = ran.returncode
assert run.verdicts() == "p" and not os.listdir("a \"b\" ö"), ran
