"""Tries each limit of wrappers/ghdl_bench over benches in VHDL and over commands in place of GHDL that sleep, stop themselves
or pass over signals. The limit is named, and none is named if somebody else killed GHDL. Works in the present folder."""

import os, time

from bench_requests import Run, build
from ghdl_bench_texts import ENDLESS, NO_TIME, bench, ending, loop_of

TMP = os.path.abspath("tmp")
os.mkdir(TMP)
os.environ["TMPDIR"] = TMP
# 1,000,000 bytes in each round, all of which are written.
GROWS = bench(loop_of([("grows", "loop\n          held := new block_t;\n          wait for 1 ns;\n        end loop;"),
                       ("does not", "held := new block_t;")]),
              "    type block_t is array (1 to 250_000) of integer;\n    type held_t is access block_t;\n    variable held : held_t;")
ENDED = "ghdl_bench: the bench was ended, since it took over "


def command(name, text):
    """The variables with which this script is GHDL."""
    os.mkdir(name)
    with open(f"{name}/ghdl", "w") as file:
        file.write("#!/bin/sh\n" + text)
    os.chmod(f"{name}/ghdl", 0o755)
    return {**os.environ, "PATH": os.path.abspath(name) + os.pathsep + os.environ["PATH"]}


def check(name, run, words, code, said, least=0.0, **settings):
    begun = time.monotonic()
    ran = run.start(words, **settings)
    took = time.monotonic() - begun
    wanted = ending(ENDLESS if run is no_time else GROWS, run.folder.split(b"/")[2].decode(), said)
    assert ran == (code, wanted.encode(), b""), f"{name}: {ran} and not {(code, wanted)}"
    assert least <= took < 60, f"{name}: it took {took:.1f} s"
    assert not os.listdir(TMP), (name, os.listdir(TMP))


built = build([(b"tb_lib", b"tb.vhd", ENDLESS.encode())])
no_time = Run(built, b"tb_lib", b"tb", b"sim", [b"no time"])
grows, small = (Run(build([(b"tb_lib", b"tb.vhd", GROWS.encode())]), b"tb_lib", b"tb", b"sim", [name])
                for name in (b"grows", b"does not"))

check("a bench that works for ever", no_time, ["--wall-limit=1"], 1, ENDED + "1 seconds\n", 1)
for name, text in {"sleeps": "sleep 100", "stops itself": "kill -STOP $$", "closes its output": "exec >&- 2>&-\nsleep 100",
                   "passes over signals": "trap '' TERM INT HUP XCPU\nsleep 100"}.items():
    check(name, no_time, ["--wall-limit=1", "--cpu-limit=50", "--memory-limit=1000"], 1, ENDED + "1 seconds\n", 1,
          env=command(name, text + "\n"))
code, output, _ = no_time.start(["--wall-limit=50"], env=command("ends", "sleep 1\nexit 3\n"))
assert code == 3 and output.endswith(b": the simulation ended with code 3\n") and b"was ended" not in output, output

check("a bench that takes time", no_time, ["--cpu-limit=1", "--wall-limit=55"], 1, NO_TIME, 1)
check("it passes over the limit", no_time, ["--cpu-limit=1"], 1, NO_TIME, 1,
      env=command("works", "trap '' XCPU\nwhile :; do :; done\n"))

check("a bench that grows", grows, ["--memory-limit=300", "--wall-limit=55"], 1, ENDED + "300 megabytes of memory\n")
code, output, _ = small.start(["--memory-limit=1000", "--wall-limit=55", "--cpu-limit=50"])
assert (code, small.verdicts()) == (0, "p"), output
# (it grows between two looks, and has ended by itself)
check("a bench that has grown", small, ["--memory-limit=1"], 1, ENDED + "1 megabytes of memory\n",
      env=command("is_short", "exit 0\n"))

limits = ["--cpu-limit=20", "--wall-limit=50", "--memory-limit=1000"]
for number in (9, 15, 24, 11):
    check(f"killed by {number}", no_time, limits, 128 + number, "ghdl_bench: GHDL was ended by signal %d\n" % number,
          env=command(f"by_{number}", f"kill -{number} $$\n"))
# (an outer limit of the same kind)
check("killed by an outer limit", no_time, limits, 152, "ghdl_bench: GHDL was ended by signal 24\n",
      env=command("outer", "sleep 1\nulimit -S -t 1\nwhile :; do :; done\n"))
