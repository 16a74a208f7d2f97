"""Which interpreter the wrappers of GHDL start: none that is a script, where there is another. Works in the present folder."""

import os, shutil, subprocess, sys

from compile_requests import WRAPPER, compile_one, fields

PACKAGE = b"package p is\n  constant c : integer := 1;\nend package p;\n"
REQUEST = b"".join(fields(b"lib", b"p.vhd", PACKAGE))
ARTEFACT = compile_one(REQUEST)[1]
# A shim that says that it was run, and what it found: it is run by the name of a command in its folder.
SHIM = '#!/bin/sh\necho "$0" >>{ran}\nexec {python} "$@"\n'


def script(path, text):
    os.makedirs(os.path.dirname(path), exist_ok=True)
    with open(path, "w") as file:
        file.write(text)
    os.chmod(path, 0o755)


def link(path, target):
    os.makedirs(os.path.dirname(path), exist_ok=True)
    os.symlink(target, path)


def check(name, folders, runs, wanted=(0, ARTEFACT, b"")):
    """The wrapper over this PATH: its answer, and how often a shim ran."""
    if os.path.exists("ran"):
        os.remove("ran")
    path = os.pathsep.join([*map(os.path.abspath, folders), os.path.abspath("commands")])
    got = compile_one(REQUEST, env={**os.environ, "PATH": path})
    assert got == wanted, f"{name}: {got} and not {wanted}"
    ran = open("ran").read().count("\n") if os.path.exists("ran") else 0
    assert ran == runs, f"{name}: the shim ran {ran} times and not {runs}"


# (GHDL may lie beside an interpreter, and be a script)
script("commands/ghdl", f"#!/bin/sh\nPATH={os.environ['PATH']} exec {shutil.which('ghdl')} \"$@\"\n")
link("commands/readlink", shutil.which("readlink"))
shim = SHIM.format(ran=os.path.abspath("ran"), python=sys.executable)
script("tool/shims/python3", shim)
link("real/python3", sys.executable)

check("an interpreter alone", ["real"], 0)
check("a shim before an interpreter", ["tool/shims", "real"], 0)
check("a shim alone", ["tool/shims"], 1)
script("tool/versions/0.1/bin/python3", shim)
check("a shim before another one", ["tool/shims"], 1)
link("tool/versions/3.9/bin/python3", sys.executable)
check("a shim before what it chooses from", ["tool/shims"], 0)
check("neither", [], 0, (75, b"", b"ghdl_analyse: there is no command python3\n"))
os.chmod("tool/shims/python3", 0o644)
check("one that may not be run", ["tool/shims", "real"], 0)

# By a link, in a folder with a blank, from a relative PATH, and by sh.
os.mkdir("a folder")
os.symlink(WRAPPER, "a folder/compile")
for words, settings in ((["./a folder/compile"], {}), (["compile"], {"PATH": "a folder" + os.pathsep + os.environ["PATH"]}),
                        (["sh", WRAPPER], {}), (["sh", "ghdl_analyse"], {"cwd": os.path.dirname(WRAPPER)})):
    cwd = settings.pop("cwd", None)
    ran = subprocess.run(words, input=REQUEST, capture_output=True, cwd=cwd, env={**os.environ, **settings})
    assert (ran.returncode, ran.stdout) == (0, ARTEFACT), (words, ran)
