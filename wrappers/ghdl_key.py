"""What the wrappers of GHDL say for `--cache-key WORDS`, by cache_key.py: all that an answer depends on beside the request and the words.
That is GHDL with its own libraries, the wrapper's own files and those of over_cache, vunit_lib, the library files below each -P, and the
kind of the processor."""

import hashlib, os, re, subprocess, sys

from cache_key import FORM, line_of
from ghdl_keeper import command_in
from shipped_library import SHIPPED

WRAPPERS = os.path.dirname(os.fsencode(SHIPPED))
# As GHDL's folder of libraries is named by --disp-config.
LIBRARIES = b"library directory: "
# Folders in which no library file is looked for: what the runner and Python write there changes all the time.
PASSED_OVER = {b"vunit_out", b"__pycache__"}
# What each start has a part of, and how its modules name others. (Of what is built on a machine the source counts.)
STARTS = [b"start_python.sh", b"start_module.py", b"over_cache_hit.c", b"over_cache"]
IMPORT = re.compile(rb'^ *(?:from (\w+) import|import ([\w, ]+))|__import__\("(\w+)"\)', re.MULTILINE)


class Rests:
    """The lines of everything that was looked at, each from before that, and the key's own lines."""

    def __init__(self):
        self.lines, self.key = {}, []

    def note(self, path):
        path = os.path.abspath(path)
        self.lines.setdefault(path, line_of(path))

    def sum_up(self, at, name):
        """Has one line stand for all from this one on: each entry of a cache has the key."""
        self.key[at:] = [b"%s %s" % (hashlib.sha256(b"\n".join(self.key[at:])).hexdigest().encode(), name)]

    def sum_file(self, name, path):
        self.note(path)
        try:
            with open(path, "rb") as file:
                total = hashlib.sha256()
                while part := file.read(1_048_576):
                    total.update(part)
            self.key.append(b"%s %s" % (total.hexdigest().encode(), name))
        except OSError as fault:
            self.key.append(b"none %s %s" % (os.strerror(fault.errno).encode(), name))

    def sum_below(self, name, folder, ending=b"", may_grow=True):
        """The files below a folder whose names end so; links are followed, each folder once. A folder that may grow is looked at each
        time."""
        left, seen = [(name, folder)], set()
        while left:
            name, folder = left.pop()
            if may_grow:
                self.note(folder)
            try:
                found = os.stat(folder)
                names = sorted(os.listdir(folder))
            except OSError as fault:
                self.key.append(b"none %s %s" % (os.strerror(fault.errno).encode(), name))
                continue
            if (found.st_dev, found.st_ino) in seen:
                continue
            seen.add((found.st_dev, found.st_ino))
            for inner in names:
                path = os.path.join(folder, inner)
                if os.path.isdir(path):
                    if inner not in PASSED_OVER and not inner.startswith(b"."):
                        left.append((b"%s/%s" % (name, inner), path))
                elif inner.endswith(ending) and os.path.isfile(path):
                    self.sum_file(b"%s/%s" % (name, inner), path)


def own_files(program):
    """The files of this folder that have a part in an answer of a wrapper: what it and over_cache import, however indirectly."""
    there, found, left = set(os.listdir(WRAPPERS)), set(), [*STARTS, program, b"over_cache.py", program + b".py"]
    while left:
        name = left.pop()
        if name not in found:
            found.add(name)
            with open(os.path.join(WRAPPERS, name), "rb") as file:
                modules = b" ".join(b" ".join(groups) for groups in IMPORT.findall(file.read()))
            left += there.intersection(module + b".py" for module in modules.replace(b",", b" ").split())
    return sorted(found)


def said_by(command, word):
    ran = subprocess.run([command, word], stdin=subprocess.DEVNULL, stdout=subprocess.PIPE, stderr=subprocess.STDOUT, timeout=20,
                         env={"PATH": os.environ.get("PATH", os.defpath)})
    return ran.stdout


def add_ghdl(rests):
    path = os.environb.get(b"PATH", os.fsencode(os.defpath))
    command = os.path.abspath(command_in(path))
    for folder in path.split(b":"):
        before = os.path.abspath(os.path.join(folder or b".", b"ghdl"))
        rests.note(before)
        if os.path.dirname(before) == os.path.dirname(command):
            break
    rests.sum_file(b"ghdl", command)
    rests.key.append(said_by(command, "--version"))
    at = len(rests.key)
    for line in said_by(command, "--disp-config").split(b"\n"):
        if line.startswith(LIBRARIES):
            rests.sum_below(b"libraries", line[len(LIBRARIES) :], b".cf", may_grow=False)
    rests.sum_up(at, b"libraries")


def main(program, words):
    rests = Rests()
    rests.key += [program.encode(), os.uname().machine.encode()]
    try:
        add_ghdl(rests)
    except (OSError, subprocess.SubprocessError) as fault:
        sys.exit(f"{program}: ghdl: {fault}")
    rests.note(WRAPPERS)
    at = len(rests.key)
    for name in own_files(os.fsencode(program)):
        rests.sum_file(b"wrappers/" + name, os.path.join(WRAPPERS, name))
    rests.sum_up(at, b"wrappers")
    at = len(rests.key)
    rests.sum_below(b"vunit_lib", os.fsencode(SHIPPED))
    rests.sum_up(at, b"vunit_lib")
    for word in map(os.fsencode, words):
        if word.startswith(b"-P"):
            rests.sum_below(word, word[2:] or b".", b".cf")
    sys.stdout.buffer.write(b"\n".join([FORM, *rests.lines.values(), b"key", *rests.key, b""]))
    sys.stdout.buffer.flush()
    os._exit(0)
