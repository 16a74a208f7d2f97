"""What the wrappers of GHDL need of the module os, under its names, and for paths of bytes alone. Its import takes as long as
that of all modules of a wrapper, and each file that is compiled waits for it."""

import sys
from posix import *
from posix import _exit, environ as environb

SEEK_SET, SEEK_END, devnull, defpath = 0, 2, b"/dev/null", b"/bin:/usr/bin"
KIND, FOLDER, FILE, LINK = 0o170000, 0o040000, 0o100000, 0o120000


def fsencode(name):
    return name if isinstance(name, bytes) else name.encode(sys.getfilesystemencoding(), sys.getfilesystemencodeerrors())


def fsdecode(name):
    return name.decode(sys.getfilesystemencoding(), sys.getfilesystemencodeerrors())


def makedirs(folder, exist_ok=False):
    """Makes a folder, with those above it that aren't there."""
    missing = []
    while folder and not path.isdir(folder):
        missing.append(folder)
        folder = path.dirname(folder)
    if not (missing or exist_ok):
        raise FileExistsError(17, strerror(17), folder)
    for folder in reversed(missing):
        mkdir(folder)


def kind_of(name, follows=True):
    try:
        return (stat if follows else lstat)(name).st_mode & KIND
    except (OSError, ValueError):
        return None


class path:
    """Of `os.path`."""

    def join(folder, *names):
        for name in names:
            folder = name if name.startswith(b"/") or not folder else folder + (b"" if folder.endswith(b"/") else b"/") + name
        return folder

    def dirname(name):
        return path.split(name)[0]

    def basename(name):
        return path.split(name)[1]

    def split(name):
        at = name.rfind(b"/") + 1
        folder = name[:at]
        return (folder if not folder.strip(b"/") else folder.rstrip(b"/")), name[at:]

    def isabs(name):
        return name.startswith(b"/")

    def abspath(name):
        return path.join(getcwdb(), name)

    def exists(name):
        return kind_of(name) is not None

    def lexists(name):
        return kind_of(name, follows=False) is not None

    def isdir(name):
        return kind_of(name) == FOLDER

    def isfile(name):
        return kind_of(name) == FILE

    def islink(name):
        return kind_of(name, follows=False) == LINK
