"""Patterns of names and of paths, by the rules of docs/user/MANUAL.md for tests and for files. `*` stands for any bytes, `?`
for one byte, and a set in brackets for one of its bytes. (It is written without the module re, which takes longer to import
than to read the few patterns of a simulator.)"""

import os

ALL = frozenset(range(256))


def set_of(members):
    """The bytes of a set: `x-y` stands for those from x to y, and any other byte for itself."""
    found, at = set(), 0
    while at < len(members):
        if members[at + 1 : at + 2] == b"-" and at + 2 < len(members):
            found.update(range(members[at], members[at + 2] + 1))
            at += 3
        else:
            found.add(members[at])
            at += 1
    return found


def parts_of(text):
    """The parts of a pattern: None for `*`, else the set of bytes that one byte may be."""
    parts, at = [], 0
    while at < len(text):
        byte = text[at : at + 1]
        at += 1
        if byte == b"*":
            parts.append(None)
        elif byte == b"?":
            parts.append(ALL)
        else:
            inside = at + 1 if byte == b"[" and text[at : at + 1] == b"!" else at
            # (the first byte of a set may be the bracket that closes others)
            closed = text.find(b"]", inside + 1) if byte == b"[" else -1
            if closed < 0:
                parts.append({byte[0]})
                continue
            members = set_of(text[inside:closed])
            parts.append(ALL - members if inside > at else members)
            at = closed + 1
    return parts


class Segment:
    """What stands between two `*`: it fits names of one length."""

    def __init__(self, parts):
        self.parts, self.length = parts, len(parts)
        is_plain = all(len(part) == 1 for part in parts)
        self.plain = bytes(byte for part in parts for byte in part) if is_plain else None

    def fits(self, name, at):
        if self.plain is not None:
            return name.startswith(self.plain, at)
        return at + self.length <= len(name) and all(name[at + offset] in part for offset, part in enumerate(self.parts))

    def find(self, name, at, end):
        """Where it fits first in a part of a name, or -1."""
        if self.plain is not None:
            return name.find(self.plain, at, end)
        return next((place for place in range(at, end - self.length + 1) if self.fits(name, place)), -1)


class NamePattern:
    """A pattern of whole names. Every text is one."""

    def __init__(self, text):
        segments = [[]]
        for part in parts_of(text):
            if part is None:
                segments.append([])
            else:
                segments[-1].append(part)
        self.first, *self.middle = map(Segment, segments)
        self.last = self.middle.pop() if self.middle else None

    def matches(self, name):
        if self.last is None:
            return len(name) == self.first.length and self.first.fits(name, 0)
        at, end = self.first.length, len(name) - self.last.length
        if at > end or not (self.first.fits(name, 0) and self.last.fits(name, end)):
            return False
        for segment in self.middle:
            at = segment.find(name, at, end)
            if at < 0:
                return False
            at += segment.length
        return True


class PathPattern:
    """A pattern of paths: it is cut at each `/`, and a part `**` stands for any number of components."""

    def __init__(self, text):
        self.parts = [None if part == b"**" else NamePattern(part) for part in text.split(b"/")]

    def matches(self, path):
        # (the positions of the pattern that what was read so far may have led to)
        reached = self.with_skips({0})
        for component in path.split(b"/"):
            stays = {at for at in reached if at < len(self.parts) and self.parts[at] is None}
            moves = {at + 1 for at in reached - stays if at < len(self.parts) and self.parts[at].matches(component)}
            reached = self.with_skips(stays | moves)
        return len(self.parts) in reached

    def with_skips(self, reached):
        """These positions, and those behind each `**` that is reached."""
        found = set()
        for at in reached:
            found.add(at)
            while at < len(self.parts) and self.parts[at] is None:
                at += 1
                found.add(at)
        return found


def project_files(folder, output):
    """The paths of the files below a folder, in the order of their bytes. What lies below `output`, or has a component that
    begins with a dot, isn't among them, and a link to a folder isn't entered."""
    found = []
    for inside, folders, files in os.walk(folder, onerror=raise_fault):
        is_top = inside == folder
        folders[:] = [name for name in folders if not name.startswith(b".") and not (is_top and name == output)]
        below = b"" if is_top else os.path.relpath(inside, folder) + b"/"
        found += [below + name for name in files if not name.startswith(b".")]
    return sorted(found)


def raise_fault(fault):
    raise fault
