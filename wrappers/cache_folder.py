"""The folder of a cache: texts, each stored once, and entries, which hold a request as bytes and references to texts, and its answer.

It has 256 subfolders, by the first byte of a digest, and in them

    DIGEST-NONCE.text1      a text and its sum
    DIGEST.N.name1          a link to such a text, by which who stores an equal one finds it
    DIGEST.N.entry1         an entry and its sum
    new-NONCE               what is being written, where the file system has no files without a name

N counts up where digests are equal and bytes differ. A file is whole when it gets its name, and never changes. A text has a nonce,
so that an entry means the same text in whichever folder it lies. What cannot be read, is cut or damaged counts as missing.
docs/FORMATS.md has the bytes.
"""

import time

import quick_os as os
from cache_command import write_all
from cache_hash import SUM, TEXT_DIGEST, sum_of, text_digest
from cache_request import with_length

NONCE = 6
NAME = TEXT_DIGEST + NONCE
MAGIC = b"over_cache entry 1\n"
INLINE, TEXT, LIST = b"\0", b"\1", b"\2"
# The greatest number of equal digests that are told apart, and of files of a request that share a list of references.
MOST_EQUAL, IN_LIST = 64, 64
DAY, STALE = 86_400, 3_600
# The bytes into which a text is read, or more where it is longer.
BUFFER = 131_072
USUAL_MEGABYTES, MEGABYTE, SUBFOLDERS = 2_048, 1_048_576, 256
# One compile in this number trims one subfolder, for at most this number of seconds of the processor.
TRIM_CHANCE, TRIM_SECONDS = 8, 0.02
# The part of its share that a trimmed subfolder keeps.
LEFT_OF_SHARE = 0.8


class Refused(Exception):
    """Why a folder isn't taken for a cache."""


def cut(data, at):
    """The bytes with a length before them that begin there, and where they end; None where they aren't whole."""
    begin = at + 4
    end = begin + int.from_bytes(data[at:begin], "little")
    return (data[begin:end], end) if begin <= end <= len(data) and begin <= len(data) else (None, len(data))


def read_file(path):
    """The bytes of a regular file and its time; None if it does not exist."""
    try:
        file = os.open(path, os.O_RDONLY | os.O_NONBLOCK | os.O_CLOEXEC)
    except OSError:
        return None
    try:
        found = os.fstat(file)
        data, left = [], found.st_size
        while left > 0 and (part := os.read(file, left)):
            data.append(part)
            left -= len(part)
        return b"".join(data), found.st_mtime
    except OSError:
        return None
    finally:
        os.close(file)


def stands_at(data, at, wanted):
    # (a slice would be a copy)
    return data.startswith(wanted, at) if isinstance(data, bytearray) else data[at : at + len(wanted)] == bytes(wanted)


class Entry:
    """The content of an entry: its time, its context beside the request, the request's parts, and the values of its answer."""

    def __init__(self, made, asked, parts, answer, path=None, used=0):
        self.made, self.asked, self.parts, self.answer, self.path, self.used = made, asked, parts, answer, path, used

    def data(self):
        text = MAGIC + b"".join(map(with_length, (self.made, self.asked, self.parts, *self.answer)))
        return text + sum_of(text)


def entry_in(data, path=None, used=0):
    """The entry that these bytes are, or None."""
    text = data[:-SUM]
    if not data.startswith(MAGIC) or sum_of(text) != data[-SUM:]:
        return None
    values, at = [], len(MAGIC)
    while at < len(text):
        value, at = cut(text, at)
        if value is None:
            return None
        values.append(value)
    return Entry(*values[:3], values[3:], path, used) if len(values) > 3 else None


class CacheFolder:
    def __init__(self, path, is_written):
        self.path, self.is_written, self.buffer = path, is_written, bytearray()
        try:
            found = os.stat(path)
        except FileNotFoundError:
            if not is_written:
                raise Refused(b"there is no folder " + path) from None
            os.makedirs(os.path.dirname(path) or b".", exist_ok=True)
            try:
                os.mkdir(path, 0o700)
            except FileExistsError:
                pass
            found = os.stat(path)
        if found.st_mode & 0o002:
            raise Refused(b"everybody may write %s: chmod o-w it" % path)
        # (who may write the folder may write what is in it, whatever the umask)
        self.folder_mode, self.file_mode = found.st_mode & 0o2777, found.st_mode & 0o666

    def text_path(self, name):
        text = name.hex().encode()
        return b"%s/%s/%s-%s.text1" % (self.path, text[:2], text[2 : 2 * TEXT_DIGEST], text[2 * TEXT_DIGEST :])

    def numbered_path(self, found, number, kind):
        text = found.hex().encode()
        return b"%s/%s/%s.%d.%s1" % (self.path, text[:2], text[2:], number, kind)

    # Reading.

    def read_text(self, name, length):
        """The text of this name and this length until the next one is read, or None. Its sum isn't looked at."""
        try:
            file = os.open(self.text_path(name), os.O_RDONLY | os.O_NONBLOCK | os.O_CLOEXEC)
        except OSError:
            return None
        try:
            if len(self.buffer) <= length + SUM:
                self.buffer = bytearray(max(BUFFER, length + SUM + 1))
            return memoryview(self.buffer)[:length] if os.readv(file, [self.buffer]) == length + SUM else None
        except OSError:
            return None
        finally:
            os.close(file)

    def read_list(self, name, length):
        """As `read_text`, of a text that says what a request is: an accident mustn't make it say something else."""
        data = read_file(self.text_path(name))
        return data[0][:-SUM] if data and len(data[0]) == length + SUM and sum_of(data[0][:-SUM]) == data[0][-SUM:] else None

    def end_of(self, parts, data, at=0, is_list=False):
        """Where what these parts stand for ends in a request, from `at` on; None where they stand for something else."""
        place = 0
        while place < len(parts):
            kind, length = parts[place : place + 1], int.from_bytes(parts[place + 1 : place + 5], "little")
            place += 5
            if kind == INLINE:
                wanted = parts[place : place + length]
                place += length
            else:
                name = parts[place : place + NAME]
                place += NAME
                if kind == LIST and not is_list:
                    inner = self.read_list(name, length)
                    at = None if inner is None else self.end_of(inner, data, at, is_list=True)
                    if at is None:
                        return None
                    continue
                wanted = self.read_text(name, length) if kind == TEXT else None
            if wanted is None or len(wanted) != length or not stands_at(data, at, wanted):
                return None
            at += length
        return at

    def request_of(self, parts):
        """The bytes of the request that parts stand for, or None where a text is missing."""
        found, place = [], 0
        while place < len(parts):
            kind, length = parts[place : place + 1], int.from_bytes(parts[place + 1 : place + 5], "little")
            size = length if kind == INLINE else NAME
            value = parts[place + 5 : place + 5 + size]
            place += 5 + size
            if kind != INLINE:
                value = self.read_list(value, length)
                value = self.request_of(value) if kind == LIST and value is not None else value
            if value is None:
                return None
            found.append(value)
        return b"".join(found)

    def names_in(self, parts):
        """The texts to which parts refer, also within lists, each with its kind and length."""
        place = 0
        while place + 5 <= len(parts):
            kind, length = parts[place : place + 1], int.from_bytes(parts[place + 1 : place + 5], "little")
            place += 5
            if kind == INLINE:
                place += length
                continue
            name = parts[place : place + NAME]
            place += NAME
            yield kind, name, length
            if kind == LIST and (inner := self.read_list(name, length)):
                yield from self.names_in(inner)

    def find(self, asked, outline, found):
        """The entry of just this, or None; its use is marked at most once a day."""
        for number in range(MOST_EQUAL):
            path = self.numbered_path(found, number, b"entry")
            if (data := read_file(path)) is None:
                return None
            entry = entry_in(data[0], path, data[1])
            if entry and entry.asked == asked and self.end_of(entry.parts, outline.data) == len(outline.data):
                self.mark_use(entry)
                return entry
        return None

    def mark_use(self, entry):
        if self.is_written and not 0 <= time.time() - entry.used < DAY:
            for path in [entry.path, *(self.text_path(name) for _, name, _ in self.names_in(entry.parts))]:
                mark(path)

    # Writing.

    def add(self, path, data):
        """Makes a file, whole or not at all; tells whether it did. It does not replace a file of that name."""
        folder = os.path.dirname(path)
        try:
            file = self.nameless_in(folder)
        except OSError:
            return self.add_named(folder, path, data)
        try:
            write_all(file, data)
            os.fchmod(file, self.file_mode)
            # (a descriptor of a folder has it follow the link that /proc has)
            os.link(b"/proc/self/fd/%d" % file, path, src_dir_fd=file, follow_symlinks=True)
            return True
        except FileExistsError:
            return False
        except FileNotFoundError:
            return self.add_named(folder, path, data)
        finally:
            os.close(file)

    def nameless_in(self, folder):
        """A file without a name in a subfolder, which is made if it is missing."""
        for _ in range(2):
            try:
                return os.open(folder, os.O_TMPFILE | os.O_WRONLY | os.O_CLOEXEC, 0o600)
            except FileNotFoundError:
                try:
                    os.mkdir(folder)
                    os.chmod(folder, self.folder_mode)
                except FileExistsError:
                    pass
        raise FileNotFoundError(folder)

    def add_named(self, folder, path, data):
        new = b"%s/new-%s" % (folder, os.urandom(8).hex().encode())
        file = os.open(new, os.O_WRONLY | os.O_CREAT | os.O_EXCL | os.O_CLOEXEC, 0o600)
        try:
            write_all(file, data)
            os.fchmod(file, self.file_mode)
            os.link(new, path)
            return True
        except FileExistsError:
            return False
        finally:
            os.close(file)
            os.unlink(new)

    def add_text(self, data, found=None):
        """The name of a text, which is stored if it is missing."""
        found = found or text_digest(data)
        for number in range(MOST_EQUAL):
            pointer = self.numbered_path(found, number, b"name")
            name = self.named_by(pointer, found)
            if name and (stored := read_file(self.text_path(name))):
                if stored[0][:-SUM] == data:
                    if not 0 <= time.time() - stored[1] < DAY:
                        mark(self.text_path(name))
                    return name
                if sum_of(stored[0][:-SUM]) == stored[0][-SUM:]:
                    continue
            return self.add_new_text(data, found, pointer, name)
        raise OSError(0, "too many texts have the same digest")

    def named_by(self, pointer, found):
        """The name that a link has, or None."""
        try:
            head, _, nonce = os.readlink(pointer).partition(b".")[0].rpartition(b"-")
            return found + bytes.fromhex(nonce.decode()) if head == found.hex().encode()[2:] and len(nonce) == 2 * NONCE else None
        except (OSError, ValueError):
            return None

    def add_new_text(self, data, found, pointer, lost):
        """Stores a text, whose link is missing, or leads to the name `lost`: that was trimmed or damaged. If another process has stored an
        equal one meanwhile, it gives that one's name."""
        name = found + os.urandom(NONCE)
        path = self.text_path(name)
        if not self.add(path, data + sum_of(data)):
            raise OSError(0, "a nonce came twice")
        if not self.add_link(path, pointer):
            first = self.named_by(pointer, found)
            if first and first != lost and (stored := read_file(self.text_path(first))) and stored[0][:-SUM] == data:
                remove(path)
                return first
            remove(pointer)
            # (if the file system has no links, two files have the text)
            self.add_link(path, pointer)
        return name

    def add_link(self, path, pointer):
        try:
            os.symlink(os.path.basename(path), pointer)
            return True
        except OSError:
            return False

    def add_parts(self, outline):
        """The parts of a request as an entry has them, with its texts stored. Many files are put into lists, which entries share."""
        head, files = outline.parts[: outline.files_at], outline.parts[outline.files_at :]
        found = [self.add_part(outline, part) for part in head]
        step = 2 * IN_LIST
        for at in range(0, len(files), step):
            group = b"".join([self.add_part(outline, part) for part in files[at : at + step]])
            is_listed = at + step <= len(files)
            found.append(LIST + len(group).to_bytes(4, "little") + self.add_text(group) if is_listed else group)
        return b"".join(found)

    def add_part(self, outline, part):
        begin, end, digest = part
        data, length = bytes(outline.view[begin:end]), (end - begin).to_bytes(4, "little")
        return INLINE + length + data if digest is None else TEXT + length + self.add_text(data, digest)

    def keep(self, asked, outline, found, answer):
        """Adds an entry; gives the one that is there then, which is another one's where that came first."""
        entry = Entry(b"%.6f" % time.time(), asked, self.add_parts(outline), answer)
        data = entry.data()
        for number in range(MOST_EQUAL):
            path = self.numbered_path(found, number, b"entry")
            if self.add(path, data):
                return entry
            stored = read_file(path)
            first = stored and entry_in(stored[0])
            if not first:
                # (it is damaged, or was trimmed just now)
                remove(path)
                if self.add(path, data):
                    return entry
            elif first.asked == asked and self.end_of(first.parts, outline.data) == len(outline.data):
                return first
            elif first.asked == asked and self.stands_for_nothing(first.parts):
                # (a text that it needs was trimmed or damaged)
                remove(path)
                if self.add(path, data):
                    return entry
        return entry

    def stands_for_nothing(self, parts):
        """Whether a text is missing to which parts refer."""
        return any((self.read_text if kind == TEXT else self.read_list)(name, length) is None for kind, name, length in self.names_in(parts))

    # Trimming.

    def limit(self):
        """The bytes that the folder may hold: those of the file `limit`, in megabytes."""
        stored = read_file(self.path + b"/limit")
        text = stored[0].strip() if stored else b""
        return (int(text) if text.isdigit() and 0 < len(text) <= 9 else USUAL_MEGABYTES) * MEGABYTE

    def trim_by_chance(self):
        chance = os.urandom(2)
        if chance[0] % TRIM_CHANCE == 0:
            self.trim(chance[1], self.limit(), TRIM_SECONDS)

    def trim(self, number, limit, seconds=None):
        """Removes what was least recently used of a subfolder that holds more than its share; gives the bytes that were removed. Where time
        is short it goes by the files that it has seen."""
        begun, now, found, links, held = time.process_time(), time.time(), [], [], 0
        try:
            with os.scandir(b"%s/%02x" % (self.path, number)) as entries:
                for entry in entries:
                    state = entry.stat(follow_symlinks=False)
                    if entry.is_symlink():
                        links.append(entry.path)
                    elif entry.is_file(follow_symlinks=False):
                        # (a time that is yet to come is of a clock that went wrong)
                        used = state.st_mtime if state.st_mtime <= now + DAY else 0
                        is_left = entry.name.startswith(b"new-") and now - used > STALE
                        found.append((0 if is_left else used, is_left, max(state.st_blocks * 512, state.st_size), entry.path))
                        held += found[-1][2]
                    if seconds and time.process_time() - begun > seconds / 2:
                        break
        except OSError:
            return 0
        share, removed = limit // SUBFOLDERS, 0
        goal = held if held <= share else int(share * LEFT_OF_SHARE)
        for _, is_left, size, path in sorted(found):
            if not is_left and held - removed <= goal or seconds and time.process_time() - begun > seconds:
                break
            removed += size if remove(path) else 0
        if removed:
            for path in links:
                if not os.path.exists(path):
                    remove(path)
        return removed


def mark(path):
    """Says that a file is in use, where that isn't refused."""
    try:
        os.utime(path)
    except OSError:
        pass


def remove(path):
    try:
        os.unlink(path)
        return True
    except OSError:
        return False
