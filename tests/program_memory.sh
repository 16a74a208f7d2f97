#!/bin/sh
# The program in ever more room, from where it just starts to where a run ends well, in each mode: it ends well, or with status
# 4 and its line, and puts nothing. No report is left by halves, and the next run in ample room ends well over the files there.
. "$TOP/tests/support/needs.sh"
needs python3
PYTHONPATH=$TOP/tests/support exec python3 -B - <<'END'
import json, os, resource, shutil, subprocess

from trial import PROGRAM, end, fail, package, project, run, toml

SIZES = 40
# The children have ample room again.
FREE = 'ulimit -S -v unlimited; exec "$0" '


def limited(words, kilobytes, folder="."):
    def limit():
        resource.setrlimit(resource.RLIMIT_AS, (kilobytes * 1024, resource.RLIM_INFINITY))
    ran = subprocess.run([PROGRAM, *words], cwd=folder, capture_output=True, preexec_fn=limit, stdin=subprocess.DEVNULL, timeout=120)
    return ran.returncode, ran.stdout, ran.stderr


def least(is_enough, low, high):
    """The least number of kilobytes, to within 8, that is enough."""
    while high - low > 8:
        middle = (low + high) // 2
        low, high = (low, middle) if is_enough(middle) else (middle, high)
    return high


def fresh():
    shutil.rmtree("project", ignore_errors=True)
    shutil.copytree(BASE, "project")


starts = least(lambda kilobytes: limited(["--no-word"], kilobytes)[0] == 2, 256, 262144)
tools = [f"{tool} = {json.dumps(['sh', '-c', FREE + word, PROGRAM])}\n" for tool, word in (("compiler", "child-analyse"), ("simulator", "child-bench"))]
FILES = {f"p{at}.vhd": package(f"p{at}", *[f"work.p{at - 1}"] * (at > 0)) + "-- a line of a comment\n" * 500 for at in range(20)}
FILES["t.vhd"] = "entity t is generic (runner_cfg : string); end;\narchitecture a of t is begin\nx <= run(\"one\");\ny <= run(\"two\");\nend;\n"
FILES["vunit.toml"] = toml({"lib": ["*.vhd"]}, more="".join(tools))
project("new", FILES)
project("built", FILES)
if run("built", "--compile", "-p", "8")[0] != 0:
    fail("a first build", "it didn't end well")
outs = 0
for BASE, words in (("new", ["--compile"]), ("new", ["-k", "-p", "3", "-x", "out.xml"]), ("built", ["-x", "out.xml"]), ("built", ["--clean", "-v"]),
                    ("built", ["-l"]), ("built", ["-f"]), ("built", ["--export-json", "out.xml"])):
    fresh()
    well = run("project", *words)
    report = open("project/out.xml").read() if os.path.exists("project/out.xml") else None
    if well[0] != 0 or well[2]:
        fail(f"{words}", f"{well}")

    def is_enough(kilobytes):
        fresh()
        return limited(words, kilobytes, "project") == well

    enough = least(is_enough, starts, 262144)
    for at in range(SIZES):
        kilobytes = starts + (enough - starts) * at // (SIZES - 4)
        fresh()
        found = limited(words, kilobytes, "project")
        outs += found[0] == 4
        name = f"{words} over {BASE} in {kilobytes} kB of {enough}"
        if found not in (well, (4, b"", b"vunit_run: out of memory\n")):
            fail(name, f"it is {found}")
        left = open("project/out.xml").read() if os.path.exists("project/out.xml") else None
        if left != (report if found == well else None):
            fail(name, f"the report is {left}")
        again = run("project", "--compile")
        if again[0] != 0 or found == well and again[1] != b"Re-compile not needed\n":
            fail(f"{name}, and then a build", f"it is {again}")
if outs < SIZES:
    fail("out of memory", f"only {outs} runs were")
end()
END
