"""Leftovers of runs of wrappers/ghdl_bench: processes, by a word that the wrapper and its keeper got and by the folder that
GHDL works in, and the content of that folder, TMPDIR."""

import os, random, time

MARK = f"--cpu-limit={random.SystemRandom().randrange(10**6, 10**8)}"


def left():
    """Running wrappers, keepers and GHDL: command lines and folders."""
    tmp = os.environ["TMPDIR"]
    found = os.listdir(tmp)
    for name in os.listdir("/proc"):
        if name.isdigit() and int(name) != os.getpid():
            try:
                with open(f"/proc/{name}/cmdline", "rb") as file:
                    words = file.read()
            except OSError:
                continue
            if MARK.encode() in words or tmp.encode() in words:
                found.append(words)
    return found


def see_nothing(name):
    until = time.monotonic() + 20
    while left():
        assert time.monotonic() < until, f"{name}: left behind: {left()}"
        time.sleep(0.02)
