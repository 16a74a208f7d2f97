"""Runs wrappers/vunit_configs over a thousand configurations, ends it in any way, and nests it with other tools. Works in the present
folder."""

import os, shutil, signal, subprocess, time

from configs_trial import BENCHES, BUILT, FRESH, HERE, PROGRAM, TMP, TOOL, check, configuration, junit, listing, project, read, start, tests

# A thousand configurations, by a simulator that is quick.
with open("bin/quick", "w", encoding="ascii") as file:
    file.write("""#!/bin/sh
echo test_suite_done >"$(grep -aom1 'vunit_out/tests/[^ ,]*/vunit_results')"
""")
os.chmod("bin/quick", 0o755)
project(configuration("lib.tb_whole", "n={n}", generics=f"{{ n = {list(range(1000))} }}"), ["quick"], {"whole.vhd": BENCHES["whole.vhd"]})
THOUSAND = [f"tb_whole.n={count}.all" for count in range(1000)]
check("a list of a thousand", start("-l"), 0, listing(THOUSAND))
check("a thousand", start("-p", "8"), 0, "Compiling into lib: whole.vhd passed\nCompile passed\n" + tests(*(f"p{name}" for name in THOUSAND)))


def marked():
    """The processes that have the mark among their words."""
    found = []
    for name in filter(str.isdigit, os.listdir("/proc")):
        try:
            with open(f"/proc/{name}/cmdline", "rb") as file:
                if MARK.encode() in file.read():
                    found.append(name)
        except OSError:
            pass
    return found


# Whatever ends the tool, nothing is left: no process, and no folder.
MARK = f"--prints=mark{os.getpid()}"
project(configuration("lib.tb_whole", "n={n}", generics="{ n = [1, 2, 3] }", words=["--sleeps=60", MARK, "--leaves=log"]))
for number in (signal.SIGTERM, signal.SIGINT, signal.SIGHUP, signal.SIGKILL):
    child = subprocess.Popen([TOOL, "table.toml", "-p", "2"], cwd="p", stdin=subprocess.DEVNULL, stdout=subprocess.DEVNULL,
                             stderr=subprocess.DEVNULL, start_new_session=True)
    until = time.monotonic() + 60
    while not (os.path.exists("p/log") and read("log").count("begins") == 2) and time.monotonic() < until:
        time.sleep(0.02)
    assert read("log") == "begins\nbegins\n" and len(marked()) >= 2, (read("log"), marked())
    child.send_signal(number)
    assert child.wait(timeout=60) == -number, f"signal {number}: it ended with {child.returncode}"
    while (marked() or os.listdir(TMP)) and time.monotonic() < until:
        time.sleep(0.02)
    assert not marked() and not os.listdir(TMP), f"signal {number} left {marked()}, {os.listdir(TMP)}"
    os.remove("p/log")

# Never more at once than -p says, over configurations and other benches.
words = ["--sleeps=0.05", "--leaves=log"]
project(configuration("lib.tb_wide", "n={n}", generics="{ n = [1, 2, 3, 4, 5] }") + configuration("lib.tb_one", "o"), ["plays", *words])
check("three at once", start("-p", "3", "-q"), 0)
running = most = 0
for line in read("log").splitlines():
    running += 1 if line == "begins" else -1
    most = max(most, running)
assert most <= 3 and read("log").count("begins") == 14, (most, read("log"))

# Of a long run it is told after ten seconds how far it is, but with -q.
project(configuration("lib.tb_wide", "quick") + configuration("lib.tb_wide", "slow", words=["--sleeps=11"]))
check("a long run", start("*.left"), 0, BUILT + tests("ptb_wide.quick.left", "ptb_wide.slow.left"), "vunit_configs: [1/2] 1 passed, 0 "
      "failed\n", is_long=True)

# Tools nest by VUNIT_RUN, and each chain of them has an end.
with open("bin/ci", "w", encoding="ascii") as file:
    file.write('#!/bin/sh\necho "ci: $*" >&2\necho "vunit_run: warning: ci" >&2\nPATH=/other:$PATH\nexport PATH\nexec "${VUNIT_RUN:-vunit_run}" "$@"\n')
os.chmod("bin/ci", 0o755)
os.symlink(PROGRAM, "bin/vunit_run")
os.symlink(TOOL, "bin/vunit_configs")
project(configuration("lib.tb_one", "good") + configuration("lib.tb_one", "bad", words=["--fails"]))
NESTED = BUILT + tests(" lib.tb_one|a|b|--configuration=bad|", "ptb_one.bad.a", "ftb_one.bad.b", "ptb_other.x")
ran = start("table.toml", "-p", "2", "-x", "out.xml", "*.bad.*", "*.x", tool=("ci",), env={**os.environ, "VUNIT_RUN": "vunit_configs"})
check("ci, and configurations in it", ran, 1, NESTED)
assert read("out.xml") == junit(("p", "tb_one.bad", "a"), ("f", "tb_one.bad", "b"), ("p", "tb_other", "x"))
shutil.rmtree("p/vunit_out")
ran = start("-p", "2", "*.bad.*", "*.x", env={**os.environ, "VUNIT_RUN": "ci"})
check("configurations, and ci in them", ran, 1, NESTED)
assert ran.stderr.count(b"ci: ") == 2 and b"ci: --num-threads=2 --quiet -- *.bad.* *.x lib.tb_one.*\n" in ran.stderr, ran.stderr
# (a warning that comes with each start is shown once)
assert ran.stderr.count(b"vunit_run: warning: ci\n") == 1, ran.stderr
