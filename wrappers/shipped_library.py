"""The library vunit_lib beside the wrappers: whole, or with short packages in the place of those of which a bench has no word.
vunit_lib/everyday.py says what these are.

A library file of GHDL has a part for each source, `file FOLDER "NAME" ..` with the lines of its units. Both forms of a package have the
same units in the same order, so the parts of one library file can be taken from both.
"""

import quick_os as os

SHIPPED = os.path.join(os.path.dirname(os.fsencode(__file__)), b"vunit_lib")
EVERYDAY = os.path.join(SHIPPED, b"everyday")
OBJECTS = b"vunit_lib-obj08.cf"


class ShortPackages:
    """The groups of packages that have a short form, each with the words by which a bench needs the whole ones."""

    def __init__(self):
        self.groups = []
        with open(os.path.join(EVERYDAY, b"words"), "rb") as file:
            for line in file:
                names, _, words = line.partition(b" : ")
                self.groups.append((set(names.split()), set(words.split())))
        self.words = set().union(*(words for _, words in self.groups))

    def without(self, found):
        """The names of the packages that can be short where a bench has these of the words."""
        return set().union(*(names for names, words in self.groups if not words & found))


def parts_of(folder):
    """The parts of a library file, without their folders, by the names of their sources; the folder is put before them again."""
    with open(os.path.join(folder, OBJECTS), "rb") as file:
        _, *parts = file.read().split(b"file . ")
    return {part[1 : part.index(b'.vhd"')]: part for part in parts}


def library_file(short):
    """The text of the library file with these packages short."""
    whole, everyday = parts_of(SHIPPED), parts_of(EVERYDAY)
    text = [b"v 4\n"]
    for name, part in whole.items():
        folder, part = (EVERYDAY, everyday[name]) if name in short else (SHIPPED, part)
        text += [b'file "', folder.replace(b'"', b'""'), b'/" ', part]
    return b"".join(text)
