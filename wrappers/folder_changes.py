"""Says which names and files of a folder and the folders below it change: by inotify where the system has it, else by a look at all of
them each second. Folders and files whose names begin with a dot, and `vunit_out`, aren't looked at."""

import os, struct

try:
    import ctypes

    LIBC = ctypes.CDLL(None, use_errno=True)
    LIBC.inotify_init1
except (ImportError, OSError, AttributeError):
    LIBC = None

OUT = "vunit_out"
PROJECT_FILES = ("vunit.toml", "vunit.csv")
SOURCES = (".vhd", ".vhdl")
MODIFIED, ATTRIBUTES, WRITTEN, MOVED_FROM, MOVED_TO, CREATED, DELETED = 0x2, 0x4, 0x8, 0x40, 0x80, 0x100, 0x200
FLOODED, LEFT, IS_FOLDER, ONLY_FOLDER = 0x4000, 0x8000, 0x40000000, 0x01000000
NAMES = MOVED_FROM | MOVED_TO | CREATED | DELETED
WATCHED = NAMES | MODIFIED | WRITTEN | ONLY_FOLDER
FLAGS = os.O_NONBLOCK | os.O_CLOEXEC
EVENT = struct.Struct("iIII")
SCAN_SECONDS = 1.0


class Change:
    """A path that changed, from the folder on, and whether its name came or went. The path None stands for any."""

    def __init__(self, path, is_name):
        self.path, self.is_name = path, is_name


def concerns(change, folder, files, is_refused):
    """Whether a change is one of the project in a folder; None where only a look at the project tells. `files` are the known
    paths of its files; a refused project may have others."""
    if change.path is None:
        return None
    if change.path in PROJECT_FILES:
        # (a list counts where there is nothing else)
        return change.path == PROJECT_FILES[0] or not os.path.exists(os.path.join(folder, PROJECT_FILES[0]))
    if change.path in files or is_refused and change.path.lower().endswith(SOURCES):
        return True
    return None if change.is_name else False


def is_seen(before, name):
    return not name.startswith(".") and before + name != OUT


def folders_below(folder, before=""):
    """The folders below one, itself included, as paths that end with a slash or are empty."""
    waiting = [before]
    while waiting:
        path = waiting.pop()
        yield path
        try:
            with os.scandir(os.path.join(folder, path)) as entries:
                waiting += [path + entry.name + "/" for entry in entries
                            if is_seen(path, entry.name) and entry.is_dir(follow_symlinks=False)]
        except OSError:
            pass


class Inotify:
    """The changes that the system tells."""

    seconds = None

    def __init__(self, folder, is_deep):
        self.folder, self.is_deep, self.file = folder, is_deep, LIBC.inotify_init1(FLAGS)
        self.folders = {}
        if self.file < 0:
            raise OSError(ctypes.get_errno(), "inotify_init1")
        try:
            self.add("")
        except OSError:
            self.close()
            raise

    def close(self):
        os.close(self.file)

    def add(self, before):
        """Watches the folders from one on; a file that was put there before counts as a change of its name."""
        for path in folders_below(self.folder, before) if self.is_deep else [""]:
            number = LIBC.inotify_add_watch(self.file, os.fsencode(os.path.join(self.folder, path)), WATCHED)
            if number >= 0:
                self.folders[number] = path
            elif path == "" or ctypes.get_errno() == 28:
                raise OSError(ctypes.get_errno(), "inotify_add_watch")

    def changes(self):
        """The changes since the last call, without waiting."""
        found = []
        while True:
            try:
                data = os.read(self.file, 65536)
            except BlockingIOError:
                return found
            at = 0
            while at < len(data):
                number, mask, _, length = EVENT.unpack_from(data, at)
                name = os.fsdecode(data[at + EVENT.size : at + EVENT.size + length].rstrip(b"\0"))
                at += EVENT.size + length
                found += self.change(number, mask, name)

    def change(self, number, mask, name):
        if mask & FLOODED:
            # (a folder may have come)
            self.add_if_there("")
            return [Change(None, True)]
        if mask & LEFT:
            self.folders.pop(number, None)
        before = self.folders.get(number)
        if before is None or not name or not is_seen(before, name):
            return []
        if mask & IS_FOLDER:
            if mask & (CREATED | MOVED_TO) and self.is_deep:
                self.add_if_there(before + name + "/")
            return [Change(None, True)] if mask & NAMES else []
        return [Change(before + name, bool(mask & NAMES))]


    def add_if_there(self, before):
        try:
            self.add(before)
        except OSError:
            pass


class Scan:
    """The changes between two looks at all files: a name, a time or a size."""

    file = None

    def __init__(self, folder, is_deep, seconds=SCAN_SECONDS):
        self.folder, self.is_deep, self.seconds, self.known = folder, is_deep, seconds, None
        self.changes()

    def close(self):
        pass

    def stamps(self):
        found = {}
        for before in folders_below(self.folder) if self.is_deep else [""]:
            try:
                with os.scandir(os.path.join(self.folder, before)) as entries:
                    for entry in entries:
                        if is_seen(before, entry.name) and not entry.is_dir(follow_symlinks=False):
                            found[before + entry.name] = self.stamp(entry)
            except OSError:
                pass
        return found

    def stamp(self, entry):
        try:
            status = entry.stat()
        except OSError:
            return None
        return status.st_ino, status.st_mtime_ns, status.st_size

    def changes(self):
        before, self.known = self.known, self.stamps()
        if before is None:
            return []
        names = before.keys() ^ self.known.keys()
        return [Change(path, path in names) for path in [*names, *(path for path in before.keys() & self.known.keys()
                                                                   if before[path] != self.known[path])]]


def has_project(folder):
    return any(os.path.lexists(os.path.join(folder, name)) for name in PROJECT_FILES)


def follow(folder, is_deep=True):
    """What tells of changes in a folder, and with `is_deep` in those below: an object with `changes`, a `file` that can be read when there
    are some, or `seconds` after which to look."""
    try:
        if LIBC:
            return Inotify(folder, is_deep)
    except OSError:
        pass
    return Scan(folder, is_deep)
