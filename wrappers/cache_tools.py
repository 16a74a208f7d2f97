"""What over_cache says of a folder and does with it: --stats, --verify, --trim and --explain. And --build, which compiles the short way of a
hit."""

import os, time

from cache_folder import INLINE, MEGABYTE, SUBFOLDERS, SUM, CacheFolder, Refused, cut, entry_in, read_file, remove
from cache_hash import sum_of, text_digest
from cache_request import BENCH, COMPILE, Malformed, Reader

USAGE = b"usage: over_cache --stats | --verify | --trim | --explain LIBRARY PATH, with OVER_CACHE\n       over_cache --build\n"
WRONG = 2
ENTRY, TEXT, LINK = b".entry1", b".text1", b".name1"


def put(text):
    os.write(1, text)


def files_in(folder):
    """The paths of all files in the subfolders, with their states; links to texts come with their own."""
    for number in range(SUBFOLDERS):
        try:
            with os.scandir(b"%s/%02x" % (folder.path, number)) as entries:
                for entry in entries:
                    try:
                        yield entry.path, entry.stat(follow_symlinks=False)
                    except FileNotFoundError:
                        # (somebody trims)
                        pass
        except OSError:
            pass


def put_stats(folder):
    counts, sizes, oldest = dict.fromkeys((ENTRY, TEXT, LINK, b""), 0), 0, time.time()
    for path, state in files_in(folder):
        kind = next((kind for kind in (ENTRY, TEXT, LINK) if path.endswith(kind)), b"")
        counts[kind] += 1
        sizes += max(state.st_blocks * 512, state.st_size)
        oldest = min(oldest, state.st_mtime) if kind in (ENTRY, TEXT) else oldest
    put(b"folder %s\nentries %d\ntexts %d\nother files %d\nmegabytes %d\nlimit %d\nleast recently used %s\n" % (
        folder.path, counts[ENTRY], counts[TEXT], counts[b""], -(-sizes // MEGABYTE), folder.limit() // MEGABYTE,
        time.strftime("%Y-%m-%d", time.gmtime(oldest)).encode()))
    return 0


def is_whole_text(path, data):
    text = data[:-SUM]
    begin = b"".join(path.rsplit(b"/", 2)[1:]).partition(b"-")[0]
    return sum_of(text) == data[-SUM:] and text_digest(text).hex().encode() == begin


def verify(folder):
    """Reads everything, and removes what is damaged. An entry of which a text is missing isn't damaged: it was trimmed."""
    whole, damaged, lacking = 0, 0, 0
    for path, _ in files_in(folder):
        if not path.endswith((ENTRY, TEXT)) or (stored := read_file(path)) is None:
            continue
        entry = entry_in(stored[0]) if path.endswith(ENTRY) else None
        if not (entry or path.endswith(TEXT) and is_whole_text(path, stored[0])):
            damaged += 1
            is_removed = folder.is_written and remove(path)
            put(b"damaged%s: %s\n" % (b", and removed" if is_removed else b"", path))
            continue
        whole += 1
        lacking += bool(entry and folder.stands_for_nothing(entry.parts))
    put(b"whole %d\ndamaged %d\nentries without all of their texts %d\n" % (whole, damaged, lacking))
    return 1 if damaged else 0


def trim_all(folder):
    if not folder.is_written:
        raise Refused(b"OVER_CACHE_READ_ONLY is set")
    limit = folder.limit()
    removed = sum(folder.trim(number, limit) for number in range(SUBFOLDERS))
    put(b"removed %d megabytes\n" % -(-removed // MEGABYTE))
    return 0


# Why a request missed.


def names_of(parts):
    """The names in the first bytes of a request: library and path; or library, bench and the name behind the bench."""
    length = int.from_bytes(parts[1:5], "little")
    head = parts[5 : 5 + length]
    if parts[:1] != INLINE or head[:4] not in (COMPILE, BENCH):
        return ()
    try:
        reader = Reader(head)
        library, name = reader.value(), reader.value()
        if head[:4] == COMPILE:
            return library, name
        reader.text()
        cases = [reader.value() for _ in range(reader.number())]
        return library, name, *(b"%s.%s" % (name, case) for case in cases)
    except Malformed:
        return ()


def values_in(data):
    values, at = [], 0
    while at < len(data):
        value, at = cut(data, at)
        values.append(value)
    return values


def lines_apart(name, before, now):
    """The first line by which two texts differ, of the second one."""
    before, now = before.split(b"\n"), now.split(b"\n")
    at = next((at for at, pair in enumerate(zip(before, now)) if pair[0] != pair[1]), min(len(before), len(now)))
    line = now[at] if at < len(now) else b"(the end)"
    return b"%s, line %d: %s" % (name, at + 1, line[:200])


class Explained:
    """An entry as its values with their names, in the order in which they are looked at."""

    def __init__(self, folder, entry):
        name, key, own, *words = values_in(entry.asked)
        self.made = float(entry.made)
        self.values = {b"the command's name": name, b"OVER_CACHE_KEY": own, b"the words": b" ".join(words),
                       b"what %s says of itself" % name: key}
        request = folder.request_of(entry.parts)
        if request is not None:
            self.add_request(request)

    def add_request(self, request):
        if request[:4] == COMPILE:
            reader = Reader(request)
            reader.value(), reader.value()
            self.values[b"the source"] = reader.value()
        else:
            reader = Reader(request)
            architecture = [reader.value() for _ in range(3)][2]
            cases = [reader.value() for _ in range(reader.number())]
            self.values[b"the architecture and the cases"] = b"\n".join([architecture, *cases])
            self.values[b"the configuration"], self.values[b"the results path"] = reader.value(), reader.value()
        for _ in range(reader.number()):
            library, path, artefact = reader.value(), reader.value(), reader.value()
            self.values[b"the artefact of %s, %s" % (library, path)] = artefact
        if reader.at < reader.length:
            reader.text()
            for _ in range(int.from_bytes(reader.value(), "little")):
                path = reader.value()
                self.values[b"the file " + path] = reader.value()

    def apart_from(self, other):
        """The names by which the other one differs, in order."""
        names = dict.fromkeys([*self.values, *other.values])
        return [name for name in names if self.values.get(name) != other.values.get(name)]

    def first_difference(self, other):
        for name in self.apart_from(other):
            before, now = other.values.get(name), self.values.get(name)
            if before is None or now is None:
                return name + (b" is new" if before is None else b" is no longer among what is asked")
            if name.startswith(b"the artefact"):
                return name + b" is another one"
            return lines_apart(name, before, now)
        return b"nothing: texts that the entry needs had been trimmed"


def explain(folder, library, name):
    found = []
    for path, _ in files_in(folder):
        if path.endswith(ENTRY) and (stored := read_file(path)) and (entry := entry_in(stored[0])):
            names = names_of(entry.parts)
            if names[:1] == (library,) and name in names[1:]:
                found.append(entry)
    if not found:
        put(b"%s, %s: there is no entry\n" % (library, name))
        return 1
    found.sort(key=lambda entry: float(entry.made))
    last, *others = [Explained(folder, entry) for entry in reversed(found)]
    when = time.strftime("%Y-%m-%d %H:%M:%S UTC", time.gmtime(last.made)).encode()
    if not others:
        put(b"%s, %s: the last one that missed was the first, at %s\n" % (library, name, when))
        return 0
    nearest = min(others, key=lambda other: len(last.apart_from(other)))
    put(b"%s, %s: the last one missed at %s, since another one was asked than in the nearest of %d entries:\n%s\n" % (
        library, name, when, len(others), last.first_difference(nearest)))
    return 0


def build():
    """Compiles over_cache_hit.c beside it, by the command cc; a start that goes on meanwhile has the one of before."""
    import subprocess

    source = os.path.join(os.path.dirname(os.path.realpath(__file__)), "over_cache_hit.c")
    made = source[:-2]
    new = f"{made}.{os.urandom(8).hex()}"
    try:
        # (a static program starts in two thirds of the time, where the C library exists in that form)
        for form, messages in (["-static"], subprocess.DEVNULL), ([], None):
            if subprocess.run(["cc", "-O2", *form, "-o", new, source], stdin=subprocess.DEVNULL, stderr=messages).returncode == 0:
                os.rename(new, made)
                break
        else:
            return 1
    finally:
        remove(new)
    put(b"made %s\n" % os.fsencode(made))
    return 0


TOOLS = {b"--stats": (put_stats, 0), b"--verify": (verify, 0), b"--trim": (trim_all, 0), b"--explain": (explain, 2)}


def run_tool(words):
    tool, count = TOOLS.get(words[0] if words else b"", (None, 0))
    path = os.environb.get(b"OVER_CACHE")
    if words == [b"--build"]:
        return build()
    if not tool or len(words) != count + 1 or not path:
        os.write(2, USAGE)
        return WRONG
    try:
        if not os.path.isdir(path):
            raise Refused(b"there is no folder " + path)
        return tool(CacheFolder(os.path.abspath(path), os.environ.get("OVER_CACHE_READ_ONLY") != "1"), *words[1:])
    except Refused as refused:
        os.write(2, b"over_cache: %s\n" % refused.args[0])
    except OSError as fault:
        os.write(2, b"over_cache: %s: %s\n" % (path, (fault.strerror or str(fault)).encode()))
    return WRONG
