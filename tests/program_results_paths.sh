#!/bin/sh
# Anything but a regular file at a simulator's results path, or on the way to it: that case fails, nothing is waited for, and no
# later run is blocked.
. "$TOP/tests/support/needs.sh"
needs python3 mkfifo
PYTHONPATH=$TOP/tests/support exec python3 -B - <<'END'
import os, stat

from trial import build_text, end, expect, fail, project, toml, write

BENCH = ("entity t is generic (runner_cfg : string); end;\narchitecture a of t is begin process begin\n"
         'if run("x") then end if;\nend process; end;\n')
FOLDER = "vunit_out/tests/lib.t.x"
RESULTS = f"{FOLDER}/vunit_results"
PASSES = f'printf "test_start:x\\ntest_suite_done\\n" >{RESULTS}'
SUMMARY = "==== Summary\npass {} of 1\nfail {} of 1\nskip 0 of 1\n"
FAILED = "fail lib.t.x\n" + SUMMARY.format(0, 1) + "Some failed!\n"
PASSED = "pass lib.t.x\n" + SUMMARY.format(1, 0) + "All passed!\n"
CURRENT = "Re-compile not needed\n"
LEAVES_SOCKET = f'import socket; socket.socket(socket.AF_UNIX).bind("{RESULTS}")'
# what a simulator does, and what lies in the run's folder, or beside it, after the next run, which passes
KINDS = [
    ("a FIFO", f"mkfifo {RESULTS}", {"vunit_results"}),
    ("a folder", f"mkdir -p {RESULTS}/deep", {"vunit_results", "vunit_old_0"}),
    ("a socket", f"python3 -c '{LEAVES_SOCKET}'", {"vunit_results"}),
    ("a link to /dev/zero", f"ln -s /dev/zero {RESULTS}", {"vunit_results"}),
    ("a link to a FIFO", f"mkfifo {FOLDER}/pipe 2>/dev/null; ln -s pipe {RESULTS}", {"vunit_results", "pipe"}),
    ("a link to itself", f"ln -s vunit_results {RESULTS}", {"vunit_results"}),
    ("a link to nothing", f"ln -s nothing {RESULTS}", {"vunit_results"}),
    ("a file in place of its folder", f"rmdir {FOLDER}; touch {FOLDER}", {"vunit_results"}),
    ("a link in place of its folder", f"rmdir {FOLDER}; ln -s nothing {FOLDER}", {"vunit_results"}),
    ("a file in place of the folder of all tests", "rm -r vunit_out/tests; touch vunit_out/tests", {"vunit_results"}),
]


def make(script):
    write("project", {"simulator.sh": "cat >/dev/null\n" + script + "\n"})


def run(name, status, text):
    expect(name, "project", status, text)


simulator = 'simulator = ["sh", "simulator.sh"]\n'
for name, script, left in KINDS:
    project("project", {"vunit.toml": toml({"lib": ["*.vhd"]}, more=simulator), "t.vhd": BENCH})
    make(script)
    run(name, 1, build_text([(b"lib", b"t.vhd")]) + FAILED)
    run(f"{name}, and once more", 1, CURRENT + FAILED)
    make(PASSES)
    run(f"after {name}", 0, CURRENT + PASSED)
    if "folder" in name and "in place" not in name:
        left = left | {"vunit_old_1"}
    found = set(os.listdir(f"project/{FOLDER}"))
    if found != left:
        fail(f"after {name}", f"left are {found}, and not {left}")
    if not stat.S_ISREG(os.lstat(f"project/{RESULTS}").st_mode):
        fail(f"after {name}", "the results are no regular file")
    run(f"after {name}, once more", 0, CURRENT + PASSED)

# What was moved aside is still there.
project("project", {"vunit.toml": toml({"lib": ["*.vhd"]}, more=simulator), "t.vhd": BENCH})
make(f"mkdir {RESULTS}; echo kept >{RESULTS}/text")
run("a folder with a file", 1, build_text([(b"lib", b"t.vhd")]) + FAILED)
make(PASSES)
run("after a folder with a file", 0, CURRENT + PASSED)
with open(f"project/{FOLDER}/vunit_old_0/text") as file:
    if file.read() != "kept\n":
        fail("after a folder with a file", "the file is another one")
end()
END
