"""Which GHDL there is, and whether it is one with which the wrappers were tried.

`untried()` is for programs that say so once; as a module that `start_module.py` runs it prints that, or nothing.
"""

import os

# Version and code generator, as `tests/try_ghdl` names them.
TRIED = {("2.0.0", "mcode")}


def named_in(text):
    """Version and code generator by what `ghdl --version` prints, or None."""
    words = text.split(b"\n")[0].split()
    generators = [line.partition(b" code generator")[0].strip() for line in text.split(b"\n") if b" code generator" in line]
    if len(words) < 2 or words[0] != b"GHDL" or not generators:
        return None
    return words[1].decode(errors="replace"), generators[0].decode(errors="replace")


def untried_in(text):
    """The note about a GHDL that prints this for --version; nothing about a tried one, or about an unknown text."""
    found = named_in(text)
    if found is None or found in TRIED:
        return ""
    return "GHDL {} {} wasn't tried with these wrappers: tests/try_ghdl tries it".format(*found)


def untried(command="ghdl"):
    """As `untried_in`, of the command in PATH; nothing if it is missing, which the wrappers report."""
    import subprocess

    path = {"PATH": os.environ.get("PATH", os.defpath)}
    try:
        ran = subprocess.run([command, "--version"], stdin=subprocess.DEVNULL, stdout=subprocess.PIPE, stderr=subprocess.DEVNULL,
                             env=path, timeout=20)
    except (OSError, subprocess.TimeoutExpired):
        return ""
    return untried_in(ran.stdout)


def main():
    if text := untried():
        print(text)
