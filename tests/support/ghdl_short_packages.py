"""The short packages of wrappers/vunit_lib/everyday. They have nothing that the whole ones haven't. A bench without one of
their words gets them, and runs over the whole ones if GHDL refuses it over these. Works in the present folder."""

import itertools, os, re, sys
from bench_requests import Run, build
from compile_requests import WRAPPERS
from ghdl_bench_texts import bench

sys.path.insert(0, WRAPPERS)
import shipped_library

FOLDER = os.path.join(WRAPPERS, "vunit_lib")
GROUPS = {"strings": b"string_ops", "logs": b"logger_pkg", "checks": b"check_pkg", "runs": b"run_pkg"}
PLACE = '; path_offset, line_num : natural := 0; file_name : string := ""'
tmp = os.path.abspath("tmp")
os.mkdir(tmp)
os.environ["TMPDIR"] = tmp


# A command ghdl that counts its starts.
os.mkdir("counted")
with open("counted/ghdl", "w") as file:
    file.write(f"#!/bin/sh\necho \"$1\" >>{os.path.abspath('starts')}\nPATH={os.environ['PATH']} exec ghdl \"$@\"\n")
os.chmod("counted/ghdl", 0o755)
COUNTED = {**os.environ, "PATH": os.path.abspath("counted") + os.pathsep + os.environ["PATH"]}


def simulate(text):
    """A run of this bench, what the wrapper put, and how often GHDL was started to run it."""
    if os.path.exists("starts"):
        os.remove("starts")
    run = Run(build([(b"tb_lib", b"tb.vhd", text.encode())]), b"tb_lib", b"tb", b"sim", [])
    _, output, _ = run.start(env=COUNTED)
    assert not os.listdir(tmp), os.listdir(tmp)
    with open("starts") as file:
        return run, output.decode("latin-1"), file.read().split().count("-r")


def lines_of(path):
    with open(os.path.join(FOLDER, path)) as file:
        return [re.sub(r"(^|\s)--.*", "", line.rstrip("\n")) for line in file]


# Each line is that of the whole package, or empty, or lacks the place of a message alone.
names = sorted(name for name in os.listdir(os.path.join(FOLDER, "everyday")) if name.endswith(".vhd"))
assert len(names) > 10 and "check_pkg.vhd" in names, names
left_out = 0
for name in names:
    whole, short = lines_of(name), lines_of(os.path.join("everyday", name))
    if name == "check_pkg.vhd":
        # Each declaration is the beginning of one in the whole package, whose other parameters have defaults.
        heads = [line.strip().rstrip(";") for line in short[: short.index("end package check_pkg;")] if line.startswith("  procedure ")]
        known = [line.strip().replace(PLACE, "").rstrip(";") for line in whole if line.startswith("  procedure ")]
        assert len(heads) > 20 and set(heads) <= set(known), set(heads) - set(known)
        continue
    assert len(whole) == len(short), name
    for one, other in zip(whole, short):
        assert other.strip() == "" or other in (one, one.replace(PLACE, ""), one.replace(", path_offset, line_num, file_name", "")), other
        left_out += one.strip() != "" and other.strip() == ""
assert left_out > 500, left_out

# Which packages are short follows from the words of the bench.
packages = shipped_library.ShortPackages()
for words, whole in [((), ()), (("check_equal", "info", "test_suite", "result"), ()), (("mock",), ("logs",)), (("checker_t",), ("checks",)),
                     (("split",), ("strings",)), (("lock_entry", "new_log_handler"), ("logs", "runs")), (("get_seed",), ("runs",)),
                     (("check_stable",), ("checks",))]:
    short = packages.without({word.encode() for word in words} & packages.words)
    assert {group for group, name in GROUPS.items() if name not in short} == set(whole), (words, short)
    text = shipped_library.library_file(short)
    for group, name in GROUPS.items():
        folder = shipped_library.SHIPPED if group in whole else shipped_library.EVERYDAY
        assert b'file "%s/" "%s.vhd"' % (folder, name) in text, (words, name)

# What a bench calls, the line of the log at its end, and how often GHDL is started. Of the last ones no word tells.
for statements, last, wanted in [
        ("info(\"short\");", "0 fs - default - INFO - short", 1),
        ("set_format(display_handler, raw); info(\"whole\");", "whole", 1),
        ("info(to_string(check_equal(1, 1)));", "0 fs - default - INFO - true", 2),
        ("check_equal(1, 1, line_num => 3, file_name => \"a.vhd\"); info(\"a\", 0, 3, \"a.vhd\");",
         "0 fs - default - INFO - a (a.vhd:3)", 2),
        ("disable(default_logger, info); info(\"x\"); enable(default_logger, info); info(\"y\");", "0 fs - default - INFO - y", 2)]:
    run, _, starts = simulate(bench(f"      {statements}"))
    with open(run.folder + b"output.txt") as file:
        output = file.read()
    assert run.verdicts() == "p" and output.split("\n")[0] == last and output.count("\n") == 2 and starts == wanted, (output, starts)

# Each choice of whole groups goes together. (A word in a string counts too.)
for chosen in itertools.product(("", "mock"), ("", "checker_t"), ("", "split"), ("", "lock_entry")):
    run, output, starts = simulate(bench(f"      check_equal(1, 1); info(\"{' '.join(chosen)}\");"))
    assert run.verdicts() == "p" and starts == 1, (chosen, output, starts)

# A bench that fails over short packages isn't started again, and neither is one that GHDL can't elaborate.
run, output, starts = simulate(bench("      check(false, \"once\");"))
assert run.verdicts() == "f" and output.count("check - ERROR - once") == 1 and starts == 1, (output, starts)
run, output, starts = simulate(bench("      check(true);").replace("(runner_cfg", "(words : string; runner_cfg"))
assert run.verdicts() == "f" and output.count("top-level generic 'words' must be overriden") == 2 and starts == 1, (output, starts)
