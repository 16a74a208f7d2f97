"""Tests with GHDL over a cache: what passed is restored with its results, its text and its report; what rests on other files, words or hooks is
simulated again. Works in the present folder."""

import os, subprocess
from cache_clones import Team, forget
from cache_places import WRAPPERS
from engines import all_at_once
from trial import toml, write

BENCH = """library vunit_lib;
context vunit_lib.vunit_context;
use std.textio.all;

entity tb_golden is
  generic (runner_cfg : string);
end entity tb_golden;

architecture sim of tb_golden is
begin
  main : process
    file golden : text open read_mode is "data/golden.txt";
    file written : text;
    variable l : line;
    variable n : integer;
  begin
    test_runner_setup(runner, runner_cfg);
    while test_suite loop
      readline(golden, l);
      read(l, n);
      if run("is seven") then
        report "it is read";
        check_equal(n, 7);
      elsif run("fails") then
        check_equal(n, 8);
      elsif run("writes") then
        file_open(written, output_path(runner_cfg) & "written.txt", write_mode);
        write(l, string'("a line"));
        writeline(written, l);
        file_close(written);
      end if;
    end loop;
    test_runner_cleanup(runner);
  end process main;
end architecture sim;
"""


def project(*words, golden="7\n", bench=BENCH):
    simulator = ", ".join(f'"{word}"' for word in ("ghdl_bench", *words))
    return {"vunit.toml": toml({"lib": ["*.vhd"]}, ["ghdl_analyse"], more=f"simulator = [{simulator}]\n"), "tb_golden.vhd": bench,
            "data/golden.txt": golden}


def read(folder, *names):
    with open(os.path.join(folder, *names), encoding="utf-8") as file:
        return file.read()


def run_of(case):
    return f"vunit_out/tests/lib.tb_golden.{case.replace(' ', '=20')}"


def restored():
    team = Team("restored")
    first, second = (team.clone(name, project("--data=data/golden.txt")) for name in ("first", "second"))
    before = team.build(first, 2, "-x", "out.xml", "*seven", "*fails", status=1, counted="-r")
    after = team.build(second, 1, "-x", "out.xml", "*seven", "*fails", status=1, counted="-r")
    assert before == after, f"the texts differ:\n{before.decode()}\n{after.decode()}"
    assert read(first, "out.xml") == read(second, "out.xml"), "the reports differ"
    for name in "vunit_results", "output.txt":
        texts = [read(folder, run_of("is seven"), name) for folder in (first, second)]
        assert texts[1] == texts[0] + ("(from the cache)\n" if name == "output.txt" else ""), f"{name}: {texts}"
    assert "it is read" in read(second, run_of("is seven"), "output.txt")
    assert "from the cache" not in read(second, run_of("fails"), "output.txt"), "a case that fails came from the cache"
    # (a file of an earlier run doesn't stay)
    write(second, {f"{run_of('is seven')}/left.txt": "left"})
    team.build(second, 0, "*seven", counted="-r")
    assert not os.path.exists(os.path.join(second, run_of("is seven"), "left.txt"))


def reported():
    team = Team("reported")
    folder = team.clone("clone", project("--data=data/golden.txt"))
    for number in 1, 2:
        forget(folder) if number == 2 else None
        os.makedirs(os.path.join(folder, "vunit_out"), exist_ok=True)
        subprocess.run([os.environ["VUNIT_RUN"], "--export-json", "vunit_out/selected.json", "*seven"], cwd=folder, check=True,
                       capture_output=True)
        team.build(folder, 2 - number, "*seven", counted="-r", VUNIT_RUN_ID=f"run{number}")
        ran = subprocess.run([os.path.join(WRAPPERS, "vunit_report"), "--run", f"run{number}", "--html", "out.html", "out.xml"], cwd=folder,
                             capture_output=True)
        assert ran.returncode == 0, ran
        text = read(folder, "out.xml")
        assert 'tests="1" failures="0" skipped="0" errors="0"' in text, text
        for name in "out.xml", "out.html":
            assert ("from the cache" in read(folder, name)) == (number == 2), f"{name} of run {number}: {read(folder, name)}"


def golden_files():
    """Two branches with equal VHDL and another golden file."""
    team = Team("golden")
    data = "--data=data/*.txt"
    team.build(team.clone("first", project(data)), 1, "*seven", counted="-r")
    folder = team.clone("second", project(data, golden="8\n"))
    team.build(folder, 1, "*seven", status=1, counted="-r")
    write(folder, {"data/golden.txt": "7\n"})
    team.build(folder, 0, "*seven", counted="-r")
    # (one file more, which the pattern matches, or fewer)
    write(folder, {"data/more.txt": ""})
    team.build(folder, 1, "*seven", counted="-r")
    team.build(folder, 0, "*seven", counted="-r")
    os.rename(os.path.join(folder, "data/more.txt"), os.path.join(folder, "data/renamed.txt"))
    team.build(folder, 1, "*seven", counted="-r")


def words_decide():
    team = Team("words")
    for words, starts in ((), 1), ((), 1), (("--data=data/golden.txt",), 1), (("--data=data/golden.txt",), 0), \
            (("--data=data/golden.txt", "--key=2"), 1), (("--data=data/golden.txt", "--seed=2"), 1), \
            (("--in=lib.tb_golden:--data=data/golden.txt",), 1), (("--in=lib.tb_golden:--data=data/golden.txt",), 0):
        folder = team.clone(f"clone_{len(os.listdir(team.folder))}", project(*words))
        team.build(folder, starts, "*seven", counted="-r")
    folder = team.clone("last", project("--data=data/golden.txt"))
    for settings in {"GHDL_BENCH_WORDS": "--vcd=a.vcd"}, {"GHDL_BENCH_KEEP": "1"}:
        team.build(folder, 1, "*seven", counted="-r", **settings)
    team.build(folder, 0, "*seven", counted="-r")


def hooks():
    """A file that a hook names, which isn't declared."""
    team = Team("hooks")
    files = {**project("--before=grep -q '^7$' data/number.txt", "--data=data/golden.txt"), "data/number.txt": "7\n"}
    team.build(team.clone("first", files), 1, "*seven", counted="-r")
    folder = team.clone("second", files)
    team.build(folder, 0, "*seven", counted="-r")
    write(folder, {"data/number.txt": "8\n"})
    team.build(folder, 0, "*seven", status=1, counted="-r")
    # (a file that the hook itself changes does not count as ground)
    changing = {**project("--before=date +%N >data/number.txt", "--data=data/golden.txt"), "data/number.txt": "7\n"}
    for name in "third", "fourth":
        team.build(team.clone(name, changing), 1, "*seven", counted="-r")


def written_files():
    """A bench that writes a file is kept only with OVER_CACHE_FILES."""
    team = Team("written")
    folder = team.clone("clone", project("--data=data/golden.txt"))
    for starts, settings in (1, {}), (1, {}), (1, {"OVER_CACHE_FILES": "1"}), (0, {"OVER_CACHE_FILES": "1"}), (0, {}):
        forget(folder) if os.path.exists(os.path.join(folder, "vunit_out")) else None
        team.build(folder, starts, "*writes", counted="-r", **settings)
        assert read(folder, run_of("writes"), "written.txt") == "a line\n"


def one_simulation():
    """All cases of a bench in one simulation, of which one fails: nothing is kept."""
    team = Team("one")
    bench = "-- vunit: run_all_in_same_sim\n" + BENCH
    folder = team.clone("failing", project("--data=data/golden.txt", bench=bench))
    for _ in range(2):
        team.build(folder, 1, "*", status=1, counted="-r")
    bench = bench.replace('elsif run("fails") then\n        check_equal(n, 8);\n', "").replace('elsif run("writes")', "elsif false")
    bench = bench.replace('check_equal(n, 7);', 'check_equal(n, 7);\n      elsif run("is more than six") then\n        check(n > 6);')
    bench = bench.replace("readline(golden, l);\n      read(l, n);", "n := 7;")
    for name, starts in ("first", 1), ("second", 0):
        text = team.build(team.clone(name, project("--data=data/golden.txt", bench=bench)), starts, "*", counted="-r")
        assert b"\npass lib.tb_golden.is more than six\n" in text and b"\npass 2 of 2\n" in text, text


all_at_once([restored, reported, golden_files, words_decide, hooks, written_files, one_simulation], 3)
