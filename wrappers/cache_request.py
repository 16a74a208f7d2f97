"""A request as the cache sees it: bytes between its texts, and the texts that are stored once. docs/FORMATS.md has requests."""

from cache_hash import entry_digest, text_digest

COMPILE, BENCH = b"VRC1", b"VRB1"
# A shorter text stays among the bytes between texts.
SHORTEST = 256


def with_length(data):
    return len(data).to_bytes(4, "little") + data


class Malformed(Exception):
    """The bytes are not a request."""


class Reader:
    """Numbers and texts of a request, one after another."""

    def __init__(self, data):
        self.data, self.at, self.length = data, 4, len(data)

    def number(self):
        end = self.at + 4
        if end > self.length:
            raise Malformed()
        value = int.from_bytes(self.data[self.at : end], "little")
        self.at = end
        return value

    def text(self):
        length = self.number()
        begin, self.at = self.at, self.at + length
        if self.at > self.length:
            raise Malformed()
        return begin, self.at

    def value(self):
        begin, end = self.text()
        return bytes(self.data[begin:end])


class Outline:
    """The parts of a request, each as where it begins and ends, and its digest where it is a text that is stored once. `files_at` is the
    first part that belongs to the built files, each of which has two; `names` are library and path, or library, bench, cases, results path
    and configuration of a bench."""

    def __init__(self, data):
        self.data, self.view, self.parts, self.begin = data, memoryview(data), [], 0
        self.kind = bytes(data[:4])
        reader = Reader(data)
        if self.kind == COMPILE:
            self.names = reader.value(), reader.value()
            self.add_text(*reader.text())
        elif self.kind == BENCH:
            library, bench, _ = reader.value(), reader.value(), reader.value()
            cases = [reader.value() for _ in range(reader.number())]
            configuration, results = reader.value(), reader.value()
            self.names = library, bench, cases, results, configuration
        else:
            raise Malformed()
        count = reader.number()
        self.add(reader.at)
        self.files_at = len(self.parts)
        self.add_built(count, reader.at)

    def add(self, end, found=None):
        """Adds what stands between the last part and this end."""
        self.parts.append((self.begin, end, found))
        self.begin = end

    def add_text(self, begin, end):
        """Adds a text that is long enough, and what stands before it."""
        if end - begin >= SHORTEST:
            self.add(begin)
            self.add(end, text_digest(self.view[begin:end]))

    def add_built(self, count, at):
        """Adds the built files, of which there may be thousands: the two names of each with the length of its text, and the text."""
        data, view, length, number, begin = self.data, self.view, len(self.data), int.from_bytes, at
        for _ in range(count):
            at += 4 + number(data[at : at + 4], "little")
            at += 4 + number(data[at : at + 4], "little")
            text = at + 4
            at = text + number(data[at:text], "little")
            if at > length:
                raise Malformed()
            self.parts += (begin, text, None), (text, at, text_digest(view[text:at]) if at - text >= SHORTEST else None)
            begin = at
        if at != length:
            raise Malformed()
        self.begin = at

    def add_files(self, files):
        """Has paths and bytes of these files belong to the request."""
        more, base = bytearray(), len(self.data)
        for path, text in [(b"", len(files).to_bytes(4, "little")), *files]:
            more += with_length(path) + with_length(text)
            end = base + len(more)
            if len(text) >= SHORTEST:
                self.add(end - len(text))
                self.add(end, text_digest(text))
            else:
                self.add(end)
        # (the request itself is the command's)
        self.data = bytearray(self.data)
        self.data += more
        self.view = memoryview(self.data)

    def digest_with(self, asked):
        """By this an entry is found."""
        found, view = [asked], self.view
        for begin, end, digest in self.parts:
            length = (end - begin).to_bytes(4, "little")
            found += (b"\0", length, view[begin:end]) if digest is None else (b"\1", length, digest)
        return entry_digest(b"".join(found))
