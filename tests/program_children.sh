#!/bin/sh
# As many compilers run at once as -p says, in order and each after its dependencies. Whichever ends first makes room for the
# next. Whatever their ends, the text is that of one at a time.
. "$TOP/tests/support/needs.sh"
needs python3
PYTHONPATH=$TOP/tests/support exec python3 -B - <<'END'
import os, sys

from trial import build_text, end, environment, expect, fail, package, project, toml, write

# Waits for files of other compilers, up to a number of looks, and leaves files of its own when it begins and when it ends. A
# line of its source says what it waits for: `-- waits NAME ..`.
COMPILER = """cat >request.$$
name=$(grep -a -o 'package [a-z0-9]* is' request.$$ | cut -d ' ' -f 2)
date +%s%N >begin.$name
mv begin.$name begun.$name
ls begun.* | wc -l >others.$name
for wanted in $(sed -n 's/^-- waits //p' request.$$); do
    left=${TRIES:-2000}
    until [ -e $wanted ]; do
        left=$((left - 1))
        [ $left -gt 0 ] || { echo "there is no $wanted"; exit 1; }
        sleep 0.005
    done
done
date +%s%N >end.$name
mv end.$name ended.$name
rm request.$$
"""


def make(files, libraries):
    project("project", files | {"compiler.sh": COMPILER, "vunit.toml": toml(libraries, ["sh", "compiler.sh"])})


def time_of(event):
    with open(f"project/{event}") as file:
        return int(file.read())


def passed(*paths):
    return build_text([path.encode().split(b":") for path in paths])


# Two compilers that wait for each other's file, and three of which each waits for the next: they run at the same time.
make({"a.vhd": package("a") + "-- waits begun.b\n", "b.vhd": package("b") + "-- waits begun.a\n"}, {"lib": ["*.vhd"]})
expect("two that wait for each other", "project", 0, passed("lib:a.vhd", "lib:b.vhd"), "--compile", "-p", "2")
write("project", {"a.vhd": package("a") + "-- waits begun.b\n-- more\n"})
os.remove("project/begun.b")
expect("the first of them alone", "project", 1, "Compiling into lib: a.vhd failed\nthere is no begun.b\nCompile failed\n", "--compile", env=dict(os.environ, TRIES="50"))
THREE = {"a.vhd": package("a") + "-- waits begun.b begun.c ended.b\n", "b.vhd": package("b") + "-- waits ended.c\n", "c.vhd": package("c")}
make(THREE, {"lib": ["*.vhd"]})
if expect("three of which the last ends first", "project", 0, passed("lib:a.vhd", "lib:b.vhd", "lib:c.vhd"), "--compile", "-p", "3"):
    if not time_of("ended.c") < time_of("ended.b") < time_of("ended.a"):
        fail("three of which the last ends first", "they ended in another order")
expect("and once more", "project", 0, build_text([]), "--compile", "-p", "3")

# One of three is refused: the others are waited for and recorded, whether it is the first or the last to end.
for refused, waits in ("c", "ended.b"), ("c", ""), ("a", "begun.c"), ("b", "ended.c"):
    files = {f"{name}.vhd": package(name) + "".join(f"-- waits begun.{other}\n" for other in "abc") for name in "abc"}
    make(files, {"lib": ["*.vhd"]})
    write("project", {"compiler.sh": COMPILER + f'[ $name != {refused} ] || {{ echo no; kill -9 $$; }}\n'})
    lines = [f"Compiling into lib: {name}.vhd " + ("failed\nno\n" if name == refused else "passed\n") for name in "abc"]
    expect(f"{refused} is ended by a signal", "project", 1, "".join(lines) + "Compile failed\n", "--compile", "-p", "3")
    write("project", {"compiler.sh": COMPILER})
    expect(f"{refused} alone after that", "project", 0, passed(f"lib:{refused}.vhd"), "--compile", "-p", "3")

# Without more than one at a time no compiler finds another one running.
make({f"{name}.vhd": package(name) for name in "abcd"}, {"lib": ["*.vhd"]})
expect("one at a time", "project", 0, passed(*(f"lib:{name}.vhd" for name in "abcd")), "--compile")
for before, after in "ab", "bc", "cd":
    if not time_of(f"ended.{before}") < time_of(f"begun.{after}"):
        fail("one at a time", f"{after} began before {before} had ended")

# Of two libraries: p and v are started first, and u1 after p's end.
make({"p.vhd": package("p") + "-- waits begun.v\n", "u1.vhd": package("u1", "work.p"), "v.vhd": package("v") + "-- waits begun.u1\n",
      "u2.vhd": package("u2", "lib.p"), "u3.vhd": package("u3", "lib.u1")}, {"lib": ["p.vhd", "u1.vhd", "v.vhd"], "tb_lib": ["u2.vhd", "u3.vhd"]})
if expect("p and v first", "project", 0, passed("lib:p.vhd", "lib:u1.vhd", "lib:v.vhd", "tb_lib:u2.vhd", "tb_lib:u3.vhd"), "--compile", "-p", "3"):
    for before, after in ("ended.p", "begun.u1"), ("ended.p", "begun.u2"), ("ended.u1", "begun.u3"), ("begun.v", "ended.p"):
        if not time_of(before) < time_of(after):
            fail("p and v first", f"{after} came before {before}")

# The first of two waits for one that can't begin before the second has ended, and so ends only where any end makes room.
make({"a.vhd": package("a") + "-- waits begun.c\n", "b.vhd": package("b"), "c.vhd": package("c")}, {"lib": ["*.vhd"]})
expect("the second of two ends first", "project", 0, passed("lib:a.vhd", "lib:b.vhd", "lib:c.vhd"), "--compile", "-p", "2")

# 64 at once: the first waits for all others, and for the 65th, which can't begin before one of the others has ended.
names = [f"f{at:02}" for at in range(65)]
files = {f"{name}.vhd": package(name) for name in names}
files["f00.vhd"] += "-- waits " + " ".join(f"begun.{name}" for name in names) + "\n"
make(files, {"lib": ["*.vhd"]})
if expect("64 at once", "project", 0, passed(*(f"lib:{name}.vhd" for name in names)), "--compile", "-p", "64"):
    if min(time_of(f"ended.{name}") for name in names) > time_of("begun.f64"):
        fail("64 at once", "65 were running")
leftover = [name for name in os.listdir("project") if name.startswith("request")]
if leftover:
    fail("64 at once", f"left are {leftover}")
end()
END
