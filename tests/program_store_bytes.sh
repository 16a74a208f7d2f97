#!/bin/sh
# Each change of one byte of a store with three records, of either form: a run goes by what the bytes say then, as another
# reader reads them. It compiles exactly the files without a current record, and leaves a current record of each file; older
# ones stay unchanged. And stores of 4 MiB are read in time and memory that grow as they do, whatever they hold.
. "$TOP/tests/support/needs.sh"
needs python3 tomllib b2sum
PYTHONPATH=$TOP/tests/support exec python3 -B - <<'END'
import concurrent.futures, hashlib, os, shutil, struct, tempfile, time

from growth import grows
from store_reader import (FORM, OLD_FORM, ViewRecord, asked_at, built_over, graph_of, latest_of, payloads_of_views, read_sides, records_in,
                          side_of, spelled, view_at, views_in)
from trial import PROGRAM, build_text, end, fail, project, run, toml

# Short texts and artefacts make stores that are short enough to try each value of each byte: two minutes' work for four
# processors, and where they have more to do it ends after this time.
SECONDS = 150
FILES = {"a": "package a is end;", "b": "use work.a;\npackage b is end;", "c": "use work.b;\npackage c is end;",
         "vunit.toml": toml({"l": ["a", "b", "c"]}, ["b2sum", "-l8"])}


def artefact_of(request):
    """What the compiler gives."""
    return hashlib.blake2b(request, digest_size=1).hexdigest().encode() + b"  -\n"


def build_over(graph, records):
    """The names of the files that a build over these records compiles, and what was asked for each file and given after it."""
    compiled, built = built_over(graph, records, artefact_of)
    return [graph[at][:2] for at in compiled], {entry[:2]: (asked_at(graph, at, built), built[at].artefact) for at, entry in enumerate(graph)}


def run_here():
    """Status and output of a build in the present folder."""
    # (so it takes half the time that it takes by `run`)
    files = [(os.POSIX_SPAWN_OPEN, 0, os.devnull, os.O_RDONLY, 0), (os.POSIX_SPAWN_OPEN, 1, "../said", os.O_CREAT | os.O_TRUNC | os.O_WRONLY, 0o666),
             (os.POSIX_SPAWN_OPEN, 2, os.devnull, os.O_WRONLY, 0)]
    _, status = os.waitpid(os.posix_spawn(PROGRAM, [PROGRAM, "--compile"], os.environ, file_actions=files), 0)
    with open("../said", "rb") as file:
        return os.waitstatus_to_exitcode(status), file.read()


def try_changes(folder, graph, sides, part, parts, until):
    """What is wrong with runs after changes of each byte whose place falls into a part, of one bit first, and how many there was no
    time for."""
    os.chdir(folder)
    changes = [(side, at, bits) for bits in sorted(range(1, 256), key=int.bit_count) for side in sides for at in range(part, len(side), parts)]
    found = []
    for done, (side, at, bits) in enumerate(changes):
        if time.monotonic() > until:
            return found, len(changes) - done
        changed = side[:at] + bytes([side[at] ^ bits]) + side[at + 1:]
        for name, data in ("store_a", changed), ("store_b", b""):
            with open(os.path.join("vunit_out", name), "wb") as file:
                file.write(data)
        stale, wanted = build_over(graph, records_in([changed, b""]))
        ran, left = run_here(), latest_of(records_in(read_sides(".")))
        if ran != (0, build_text(stale).encode()) or {name: left.get(name) for name in wanted} != wanted:
            found.append((f"byte {at} of {side} is {changed[at]}", f"it is {ran}, and not {stale}; it leaves\n{left}\nand not\n{wanted}"))
    return found, 0


def text_ref(source):
    """A new text, or the number of one."""
    return b"\1" + spelled(source) if isinstance(source, bytes) else b"\0" + struct.pack("<Q", source)


def beginning(kind, path, source, needs):
    """How a node of form 2 and a record of form 3 begin."""
    command = struct.pack("<I", 2) + spelled(b"b2sum") + spelled(b"-l8")
    return bytes([kind]) + spelled(b"l") + spelled(path) + command + text_ref(source) + struct.pack("<I%dQ" % len(needs), len(needs), *needs)


def node(path, source, needs=()):
    """A payload of form 2 with a new node and its record."""
    return beginning(1, path, source, needs) + spelled(b"x")


def record(path, source, needs=(), artefact=1):
    """A payload of form 3 with a record."""
    return beginning(1, path, source, needs) + text_ref(artefact)


def product(path, artefact):
    """One with a product alone."""
    return b"\0" + spelled(b"l") + spelled(path) + text_ref(artefact)


# (a disk in memory syncs in no time)
with tempfile.TemporaryDirectory(dir="/dev/shm" if os.access("/dev/shm", os.W_OK) else ".") as room:
    project(f"{room}/built", FILES)
    graph = graph_of(f"{room}/built")
    stale, wanted = build_over(graph, [])
    ran = run(f"{room}/built", "--compile")
    side, other = read_sides(f"{room}/built")
    if ran != (0, build_text(stale).encode(), b"") or records_in([side]) != list(wanted.values()) or len(wanted) != 3 or other:
        fail("a first build", f"it is {ran}, and leaves {side} and {other}")
    old = side_of(OLD_FORM, 1, payloads_of_views([ViewRecord(view_at(graph, at), wanted[entry[:2]][1]) for at, entry in enumerate(graph)]))
    if records_in([old]) != list(wanted.values()) or len(views_in([old])) != 3:
        fail("the records of the older form", f"they are {records_in([old])}")
    with concurrent.futures.ProcessPoolExecutor() as pool:
        works, until, untried = [], time.monotonic() + SECONDS, 0
        for at in range(os.cpu_count()):
            folder = os.path.join(room, str(at), "project")
            shutil.copytree(f"{room}/built", folder)
            works.append(pool.submit(try_changes, os.path.abspath(folder), graph, [side, old], at, os.cpu_count(), until))
        for work in works:
            found, rest = work.result()
            untried += rest
            for name, said in found:
                fail(name, said)
    if untried:
        print(f"not tried: {untried} changes of one byte, for want of time")


def over(stale, *sides):
    """A build over these sides, in which the one file has a record or not."""
    files = {"a": SOURCE, "vunit.toml": toml({"l": ["a"]}, ["b2sum", "-l8"])}
    files |= {f"vunit_out/store_{name}": data for name, data in zip("ab", sides)}
    return files, 0, build_text([(b"l", b"a")] * stale), ""


def many(form, size, payload):
    """A side with the record of the file, and then payloads of such a length that it has so many bytes."""
    first = FIRST[form]
    return side_of(form, 1, [first, *(payload(at) for at in range((size - len(first) - 24) // (len(payload(10)) + 5)))])


def over_all(form, size, payload):
    """The same, of payloads of which each is over all before it."""
    return side_of(form, 1, [FIRST[form], *(payload(b"%06x" % at, 0, range(at + 1)) for at in range(int((size / 4) ** 0.5)))])


SIZES = 1048576, 4194304
SOURCE = FILES["a"].encode()
FIRST = {OLD_FORM: node(b"a", SOURCE), FORM: record(b"a", SOURCE, (), b"x")}
grows("bytes of value 1", lambda size: over(True, b"\1" * size, b"\1" * size), SIZES, "--compile")
for form, name, payload in [
    (FORM, "empty payloads", lambda _: b""), (FORM, "records of one file", lambda _: record(b"a", 0)),
    (FORM, "one record that is none again and again", lambda _: FIRST[FORM]), (FORM, "one product again and again", lambda _: product(b"a", 1)),
    (FORM, "products of one artefact", lambda at: product(b"%06x" % at, 1)), (FORM, "products of other artefacts", lambda at: product(b"%06x" % at, b"%06x" % at)),
    (FORM, "records of one text", lambda at: record(b"%06x" % at, 0)), (FORM, "records of other texts", lambda at: record(b"%06x" % at, b"%06x" % at)),
    (FORM, "records over one product", lambda at: record(b"%06x" % at, 0, [0])),
    (OLD_FORM, "empty payloads of form 2", lambda _: b""), (OLD_FORM, "records of one node", lambda _: b"\0" + struct.pack("<Q", 0) + spelled(b"y")),
    (OLD_FORM, "one node again and again", lambda _: FIRST[OLD_FORM]), (OLD_FORM, "nodes of one text", lambda at: node(b"%06x" % at, 0)),
    (OLD_FORM, "nodes of other texts", lambda at: node(b"%06x" % at, b"%06x" % at)), (OLD_FORM, "nodes over one node", lambda at: node(b"%06x" % at, 0, [0])),
]:
    grows(name, lambda size: over(False, many(form, size, payload)), SIZES, "--compile")
for form in FORM, OLD_FORM:
    grows(f"bytes of value 1 behind a header of form {form}", lambda size: over(True, side_of(form, 1, [])[:-1] + b"\1" * size), SIZES, "--compile")
grows("records over all before them", lambda size: over(False, over_all(FORM, size, record)), SIZES, "--compile")
grows("nodes over all before them", lambda size: over(False, over_all(OLD_FORM, size, node)), SIZES, "--compile")
end()
END
