"""Texts as an editor counts in them: by lines, and in a line by units of UTF-16 or UTF-8; the program counts bytes."""

import bisect, itertools

UTF_8, LATIN_1 = "utf-8", "latin-1"


def lines_of(data):
    """The lines with their ends. Behind a last end there is one more, which is empty."""
    lines = data.splitlines(keepends=True)
    if not lines or lines[-1].endswith((b"\n", b"\r")):
        lines.append(b"")
    return lines


class Text:
    """The bytes of a file, line by line. `units` is what a client counts in a line: utf-16 or utf-8."""

    def __init__(self, data, units, encoding=UTF_8):
        self.lines, self.units, self.encoding, self.starts = lines_of(data), units, encoding, None

    def data(self):
        return b"".join(self.lines)

    def width(self, part):
        """The units of a part of a line."""
        if part.isascii():
            return len(part)
        letters = part.decode(self.encoding, "replace")
        return len(letters.encode("utf-16-le")) // 2 if self.units == "utf-16" else len(letters.encode())

    def position(self, offset):
        """The line and the unit of an offset in bytes, both from 0 on."""
        if self.starts is None:
            self.starts = [0, *itertools.accumulate(map(len, self.lines[:-1]))]
        line = bisect.bisect_right(self.starts, offset) - 1
        return {"line": line, "character": self.width(self.lines[line][: offset - self.starts[line]])}

    def range(self, start, end):
        return {"start": self.position(start), "end": self.position(end)}

    def bytes_before(self, line, character):
        """The bytes of a line before a unit; those before the line's end where it is beyond that."""
        text = self.lines[line].rstrip(b"\r\n")
        if text.isascii():
            return min(character, len(text))
        encoding, size = ("utf-16-le", 2) if self.units == "utf-16" else (UTF_8, 1)
        letters = text.decode(self.encoding, "replace").encode(encoding)[: character * size].decode(encoding, "ignore")
        return min(len(letters.encode(self.encoding, "replace")), len(text))

    def change(self, start, end, new):
        """Replaces what stands between two places, each a line and a unit, by a text. Gives the place where that ends."""
        try:
            data = new.encode(self.encoding)
        except UnicodeEncodeError:
            if self.encoding == LATIN_1:
                self.lines, self.encoding = lines_of(self.data().decode(LATIN_1).encode()), UTF_8
            data = new.encode(UTF_8, "replace")
        last = len(self.lines) - 1
        (first, before), (end_line, after) = (self.cut(place, last) for place in (start, end))
        data = self.lines[first][:before] + data + self.lines[end_line][after:]
        # (a carriage return and a line feed may become one end of a line)
        if first > 0 and self.lines[first - 1].endswith(b"\r"):
            first -= 1
            data = self.lines[first] + data
        if end_line < last and self.lines[end_line + 1].startswith(b"\n"):
            end_line += 1
            data += self.lines[end_line]
        new_lines = lines_of(data)
        if end_line < last and new_lines[-1] == b"":
            new_lines.pop()
        self.lines[first : end_line + 1] = new_lines
        self.starts = None
        added = lines_of(new.encode(UTF_8, "replace"))
        width = Text(added[-1], self.units).width(added[-1])
        return start[0] + len(added) - 1, width + (start[1] if len(added) == 1 else 0)

    def cut(self, place, last):
        """The line of a place, and the bytes before it there. What is beyond the text is its end."""
        line, character = place
        return (line, self.bytes_before(line, character)) if line <= last else (last, len(self.lines[last]))


def text_of_buffer(letters, saved, units):
    """The text of a buffer: in Latin-1 where the saved file is so, and is that buffer; else in UTF-8."""
    data = letters.encode(UTF_8, "replace")
    if saved is not None and data != saved and not is_utf_8(saved) and saved.decode(LATIN_1) == letters:
        return Text(saved, units, LATIN_1)
    return Text(data, units)


def is_utf_8(data):
    try:
        data.decode()
    except UnicodeDecodeError:
        return False
    return True
