"""A folder that looks like the project with the buffers of an editor saved: its folders, a link for each file, and a file for
each unsaved buffer."""

import os

OUT = "vunit_out"
FOLDER, LINK = "folder", "link"


def is_hidden(name):
    """Whether no pattern of a project reaches what is below a folder of this name: it is linked as a whole."""
    return name.startswith(".")


class LinkedFolder:
    def __init__(self, project, path, own=()):
        """`own` are folders that are left out: the one in which this folder is made may lie in the project."""
        self.project, self.path, self.own = project, path, {os.path.realpath(folder) for folder in own}
        self.entries, self.listing = {}, None
        os.mkdir(path)

    def list_project(self):
        """The entries without any buffer: each folder before its content."""
        listing, waiting = {}, [""]
        while waiting:
            before = waiting.pop()
            for entry in self.entries_of(before):
                path = before + entry.name
                if path == OUT:
                    continue
                if is_hidden(entry.name) or not entry.is_dir(follow_symlinks=False):
                    listing[path] = LINK
                elif not self.own or os.path.realpath(entry.path) not in self.own:
                    listing[path] = FOLDER
                    waiting.append(path + "/")
        return listing

    def entries_of(self, folder):
        try:
            with os.scandir(os.path.join(self.project, folder)) as entries:
                return list(entries)
        except OSError:
            return []

    def follow(self, buffers, has_new_names, is_project=True):
        """Brings the folder up to date. `buffers` are the paths and the bytes of the unsaved buffers. Of a folder that has no
        project nothing else is there."""
        if not is_project:
            self.listing = {}
        elif has_new_names or self.listing is None:
            self.listing = self.list_project()
        wanted = dict(self.listing) if buffers else self.listing
        for path, data in buffers.items():
            self.add_buffer(wanted, path, data)
        if wanted is self.entries:
            return
        for path in reversed([path for path, kind in self.entries.items() if is_gone(kind, wanted.get(path))]):
            self.remove(path, self.entries[path])
        for path, kind in wanted.items():
            if kind != self.entries.get(path):
                self.make(path, kind)
        self.entries = wanted

    def add_buffer(self, wanted, path, data):
        """Adds a buffer, and the folders in which it is, unless one of them is a link of the project, which no pattern follows. (One
        that begins with a dot, or is below such a one, is linked as a whole.)"""
        folders = path.split("/")[:-1]
        for count in range(1, len(folders) + 1):
            folder = "/".join(folders[:count])
            if wanted.get(folder) == LINK:
                full = os.path.join(self.project, folder)
                if os.path.islink(full) or not os.path.isdir(full):
                    return
                for entry in self.entries_of(folder):
                    wanted.setdefault(f"{folder}/{entry.name}", LINK)
            if wanted.get(folder) != FOLDER:
                # (behind its files in this dictionary, before them in the folder)
                wanted.pop(folder, None)
                below = {at: wanted.pop(at) for at in list(wanted) if at.startswith(folder + "/")}
                wanted[folder] = FOLDER
                wanted.update(below)
        wanted[path] = data

    def remove(self, path, kind):
        full = os.path.join(self.path, path)
        try:
            os.rmdir(full) if kind == FOLDER else os.unlink(full)
        except OSError:
            # (what a simulation left in it stays)
            pass

    def make(self, path, kind):
        full = os.path.join(self.path, path)
        if kind == FOLDER:
            os.makedirs(full, exist_ok=True)
            return
        # (a run that reads meanwhile sees the earlier file or the later one)
        new = f"{self.path}.new"
        if kind == LINK:
            os.symlink(os.path.join(self.project, path), new)
        else:
            with open(new, "wb") as file:
                file.write(kind)
        os.replace(new, full)

    def read(self, path):
        """The bytes of the file there, or None."""
        try:
            with open(os.path.join(self.path, path), "rb") as file:
                return file.read()
        except (OSError, ValueError):
            return None


def is_gone(kind, wanted):
    """Whether an entry has to go before another can come. (A link and a file replace each other.)"""
    return wanted is None or (kind == FOLDER) != (wanted == FOLDER)
