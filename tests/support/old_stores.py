"""Makes the stores of tests/data/old_stores anew, by a program that writes form 2: VUNIT_RUN.

`project` has the files of a project of two libraries, but for its compiler, analysing.sh: `l` and `r` use `p`, `t` uses both, `u` uses
`p`, and `v` uses nothing.
Each other folder has the two sides of a store, and the files that aren't as in `project` when it is opened.

usage: TOP=.. VUNIT_RUN=PROGRAM old_stores.py
"""
import os, shutil, subprocess, tempfile

from store_reader import OLD_FORM, counting_side, payloads, read_sides, side_of
from trial import PROGRAM, build_text, environment, fail, failures, package, run, started_in, toml, write

HERE = os.path.join(os.environ["TOP"], "tests", "data", "old_stores")
SUPPORT = os.path.dirname(os.path.abspath(__file__))
FILES = {
    "lib/l.vhd": package("l", "work.p"), "lib/p.vhd": package("p"), "lib/r.vhd": package("r", "work.p"), "lib/v.vhd": package("v"),
    "top/t.vhd": package("t", "lib.l", "lib.r"), "top/u.vhd": package("u", "lib.p"),
    "vunit.toml": toml({"lib": ["lib/*.vhd"], "top": ["top/*.vhd"]}, ["sh", "analysing.sh"]),
}
ORDER = ["lib/p.vhd", "lib/l.vhd", "lib/r.vhd", "lib/v.vhd", "top/t.vhd", "top/u.vhd"]
NOTE, REFUSED = "-- child: note 1\n", "-- child: refuse no\n"
LONG = 400_000


def build(*started, status=0):
    """A build that starts these files; the last is refused if the status is 1."""
    found = run("project", "--compile", env=environment("requests"))
    names = [path.decode() for _, path in started_in("requests")]
    if found[0] != status or names != list(started):
        fail("a build", f"it is {found}, and started {names}")


def edit(path, *lines):
    write("project", {path: FILES[path] + "".join(lines)})


def keep(name, edits=(), sides=None):
    """Keeps the store, and the files that were edited last."""
    folder = os.path.join(HERE, name)
    for path in edits:
        write(folder, {path: open(os.path.join("project", path)).read()})
    for side, data in zip("ab", sides or read_sides("project")):
        write(folder, {f"store_{side}": data})


def anew():
    """The project, with a record of each file."""
    shutil.rmtree("project", ignore_errors=True)
    shutil.copytree(os.path.join(HERE, "project"), "project")
    shutil.copy(os.path.join(SUPPORT, "analysing.sh"), "project")
    build(*ORDER)


def main():
    shutil.rmtree(HERE, ignore_errors=True)
    write(os.path.join(HERE, "project"), FILES)
    anew()
    keep("whole")

    # p was edited: there are records over both of its texts.
    edit("lib/p.vhd", NOTE)
    build("lib/p.vhd", "lib/l.vhd", "lib/r.vhd", "top/t.vhd", "top/u.vhd")
    keep("edited", ["lib/p.vhd"])

    # p was edited, and a user of it was refused: the other users have records over the old p.
    anew()
    edit("lib/p.vhd", NOTE)
    edit("lib/l.vhd", REFUSED)
    build("lib/p.vhd", "lib/l.vhd", status=1)
    edit("lib/l.vhd")
    keep("refused", ["lib/p.vhd"])

    # r was edited, and its one user was refused.
    anew()
    edit("lib/r.vhd", NOTE)
    edit("top/t.vhd", REFUSED)
    build("lib/r.vhd", "top/t.vhd", status=1)
    edit("top/t.vhd")
    keep("one_refused", ["lib/r.vhd"])

    # The same, and then v was long for a while, so that the store is compacted. Of the side that it was in only the first three payloads
    # are kept here, since it has over a mebibyte.
    edit("top/t.vhd", REFUSED)
    for letter in "abc":
        edit("lib/v.vhd", f"-- {letter * 6}\n" * (LONG // 10))
        build("lib/v.vhd", "top/t.vhd", status=1)
    edit("lib/v.vhd")
    build("lib/v.vhd", "top/t.vhd", status=1)
    build("top/t.vhd", status=1)
    edit("top/t.vhd")
    old, new = read_sides("project")
    keep("compacted", ["lib/r.vhd"], [side_of(OLD_FORM, 1, payloads(old)[0][:3]), new])

    # v was edited, and the program was killed when its record was written, but for the gate before it.
    anew()
    edit("lib/v.vhd", NOTE)
    before = ["strace", "--quiet=all", "-o", "../calls", "-P", "vunit_out/store_a", "-e", "trace=pwrite64", "-e", "inject=pwrite64:signal=KILL:when=2"]
    run("project", "--compile", env=environment("requests"), before=before)
    side = counting_side(read_sides("project"), OLD_FORM)
    if len(side) <= payloads(side)[1] + 1:
        fail("a stop", "nothing was written")
    keep("stopped", ["lib/v.vhd"])


with tempfile.TemporaryDirectory() as room:
    os.chdir(room)
    main()
if failures:
    raise SystemExit(1)
