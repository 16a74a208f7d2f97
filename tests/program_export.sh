#!/bin/sh
# The export is one compact JSON text with sorted keys, of the files in compile order and of the tests that patterns
# match. Its folder is made, a file that is there is replaced as a whole or not at all, and a device is written in place.
. "$TOP/tests/support/needs.sh"
needs python3
PYTHONPATH=$TOP/tests/support exec python3 -B - "$VUNIT_RUN" <<'EOF'
import json, os, subprocess, sys

from told import without_told

program = sys.argv[1]
TEXT = 'entity t is generic (runner_cfg : string); end;\narchitecture a of t is begin\nx <= run("one");\nend;\n'
WANTED = '{"export_format_version":{"major":1,"minor":0,"patch":0},"files":[{"file_name":"tb.vhd","library_name":"lib"}],"tests":[{"attributes":{},"location":{"file_name":"tb.vhd","length":3,"offset":87},"name":"lib.t.one"}]}\n'


def write(path, text):
    if os.path.dirname(path):
        os.makedirs(os.path.dirname(path), exist_ok=True)
    with open(path, "w") as file:
        file.write(text)


def export(path, *patterns, status=0, out="", err="", opened=False):
    ran = subprocess.run([program, "--export-json", path, *patterns], stdin=subprocess.DEVNULL, capture_output=True, text=True)
    if (ran.returncode, ran.stdout, without_told(ran.stderr.encode()).decode()) != (status, out, err):
        sys.exit(f"--export-json {path}: {ran.returncode, ran.stdout[:500], ran.stderr[:500]} and not {status, out, err}")
    if os.path.exists("vunit_out") and not opened:
        sys.exit("an export opened the store")


def holds(path, wanted):
    with open(path) as file:
        if (found := file.read()) != wanted:
            sys.exit(f"{path} holds {found[:600]!r} and not {wanted[:600]!r}")


os.mkdir("one")
os.chdir("one")
write("vunit.csv", "lib,tb.vhd")
write("tb.vhd", TEXT)
export("e.json")
holds("e.json", WANTED)
export("new/folders/e.json")
holds("new/folders/e.json", WANTED)
write("e.json", '{"files": [], "export_format_version": "of another program"' + " " * 5000)
export("e.json", "no such test")
holds("e.json", WANTED.replace(WANTED[WANTED.index('"tests":['):], '"tests":[]}\n'))

# A failed write is a fault, changes no existing file, and leaves nothing beside it.
os.mkdir("folder")
for path, cause in [("folder", "write: Is a directory (os error 21)"), ("tb.vhd/e.json", "stat: Not a directory (os error 20)"),
                    ("/dev/full", "write: No space left on device (os error 28)")]:
    export(path, status=3, err=f"vunit_run: fault of report\nvunit_run: {path}: {cause}\n")
holds("tb.vhd", TEXT)
found = sorted(os.listdir("."))
if found != ["e.json", "folder", "new", "tb.vhd", "vunit.csv"] or os.listdir("folder"):
    sys.exit(f"after faults there are {found}")
export("/dev/stdout", out=WANTED)

# Patterns choose tests and never files; files are in compile order, tests in project order; names are escaped.
os.mkdir("../two")
os.chdir("../two")
write("vunit.toml", '[[library]]\nname = "Lib"\nfiles = ["z.vhd", "src/*.vhd"]\n')
write("z.vhd", "use work.p.all;\n" + TEXT.replace(" t ", " z ").replace('"one"', '"\\/ ""q"" é") & run("two"'))
write("src/a.vhd", "package p is end;\n" + TEXT.replace('x <= run("one");', ""))
export("e.json")
with open("e.json") as file:
    found = json.load(file)
wanted = {
    "export_format_version": {"major": 1, "minor": 0, "patch": 0},
    "files": [{"file_name": "src/a.vhd", "library_name": "lib"}, {"file_name": "z.vhd", "library_name": "lib"}],
    "tests": [],
}
for name, path, text in ('lib.z.\\/ "q" é', "z.vhd", '\\/ ""q"" é'), ("lib.z.two", "z.vhd", "two"), ("lib.t.all", "src/a.vhd", "t"):
    with open(path, "rb") as file:
        place = file.read().index(f"entity {text}".encode() if text == "t" else f'"{text}"'.encode())
    place += len("entity ") if text == "t" else 1
    wanted["tests"].append({"attributes": {}, "location": {"file_name": path, "length": len(text.encode()), "offset": place}, "name": name})
if found != wanted:
    sys.exit(f"the export is {found} and not {wanted}")
with open("e.json") as file:
    if file.read() != json.dumps(wanted, sort_keys=True, separators=(",", ":"), ensure_ascii=False) + "\n":
        sys.exit("the export isn't compact, sorted and in UTF-8")
export("e.json", "*two")
with open("e.json") as file:
    found = json.load(file)
if found["files"] != wanted["files"] or found["tests"] != wanted["tests"][1:2]:
    sys.exit(f"the export of one test is {found}")

# No report takes the place of the store, whatever path leads there, nor is one made where the store is to be.
os.mkdir("../three")
os.chdir("../three")
write("vunit.csv", "lib,tb.vhd")
write("tb.vhd", TEXT)
SPARED = ["vunit_out/store_a", "vunit_out/store_b", "./vunit_out//store_a", "vunit_out/../vunit_out/./store_b", os.path.abspath("vunit_out/store_a")]
for path in SPARED:
    export(path, status=3, err=f"vunit_run: fault of report\nvunit_run: {path}: write: it is a file of the store\n")


def run(*words, status=0, out="", err=""):
    ran = subprocess.run([program, *words], stdin=subprocess.DEVNULL, capture_output=True, text=True)
    if (ran.returncode, ran.stdout, without_told(ran.stderr.encode()).decode()) != (status, out, err):
        sys.exit(f"{words}: {ran.returncode, ran.stdout[:500], ran.stderr[:500]} and not {status, out, err}")


def store():
    return [open(f"vunit_out/store_{side}", "rb").read() for side in "ab"]


run("--compile", out="Compiling into lib: tb.vhd passed\nCompile passed\n")
os.symlink("vunit_out/store_a", "link")
os.symlink("vunit_out", "folder_link")
before = store()
for path in [*SPARED, "link", "folder_link/store_b", "folder_link/../vunit_out/store_a"]:
    told = f"vunit_run: fault of report\nvunit_run: {path}: write: it is a file of the store\n"
    export(path, status=3, err=told, opened=True)
    run("-x", path, status=3, out="Re-compile not needed\npass lib.t.one\n==== Summary\npass 1 of 1\nfail 0 of 1\nskip 0 of 1\nAll passed!\n", err=told)
    if store() != before or not os.path.islink("link"):
        sys.exit(f"a report to {path} changed the store")
run("--compile", out="Re-compile not needed\n")
# (a file beside the store is one like others)
run("--export-json", "vunit_out/store_c")
EOF
