#!/usr/bin/env -S python3 -B
"""Reads what vunit_run asks of a compiler and of a simulator. As a command it makes a compile request, to try a compiler alone:

usage: tools/request.py LIBRARY PATH | tools/compile
"""

import struct, sys


class Request:
    """The parts of a request, taken one after the other."""

    def __init__(self, mark, data):
        self.data, self.at = data, len(mark)
        if not data.startswith(mark):
            raise ValueError("no request")

    def number(self):
        self.at += 4
        return struct.unpack_from("<I", self.data, self.at - 4)[0]

    def text(self):
        size = self.number()
        self.at += size
        if self.at > len(self.data):
            raise ValueError("no request")
        return self.data[self.at - size : self.at]

    def files(self):
        """Library, path and artefact of each file; nothing may come after them."""
        found = [(self.text(), self.text(), self.text()) for _ in range(self.number())]
        if self.at != len(self.data):
            raise ValueError("no request")
        return found


def take(mark):
    """The request on standard input, all of it."""
    return Request(mark, sys.stdin.buffer.read())


def spelled(text):
    return struct.pack("<I", len(text)) + text


if __name__ == "__main__":
    library, path = sys.argv[1:]
    with open(path, "rb") as file:
        parts = library.encode(), path.encode(), file.read()
    sys.stdout.buffer.write(b"VRC1" + b"".join(map(spelled, parts)) + struct.pack("<I", 0))
