"""What the tests share that have the program compile projects with GHDL, one edit after the other. They work in the present folder."""

import os, subprocess

TOP = os.environ["TOP"]
os.environ["PATH"] = f"{TOP}/wrappers:{os.environ['PATH']}"
FRESH = (0, ["Re-compile not needed"])


def run(folder, *words):
    """Status and the lines of standard output."""
    ran = subprocess.run([os.environ["VUNIT_RUN"], "--compile", *words], cwd=folder, stdin=subprocess.DEVNULL,
                         stdout=subprocess.PIPE, encoding="latin-1")
    return ran.returncode, ran.stdout.splitlines()


def passed(library, paths):
    return [f"Compiling into {library}: {path} passed" for path in paths]


def check(name, got, wanted):
    assert got == wanted, "\n".join([name, "it printed", str(got[0]), *got[1], "and not", str(wanted[0]), *wanted[1]])


def edit(path, old, new):
    with open(path, encoding="latin-1") as file:
        text = file.read()
    assert text.count(old) == 1, f"{path} has {text.count(old)} times {old}"
    with open(path, "w", encoding="latin-1") as file:
        file.write(text.replace(old, new))
