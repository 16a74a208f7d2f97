"""The short way of a hit, which is compiled: it answers without an interpreter, and hands over what isn't usual. Works in the present folder."""

import hashlib, os, shutil, subprocess, time
from cache_places import HIT, WRAPPERS, CachePlace, request
from compile_requests import fields

# The bytes of the longest artefact.
ARTEFACT = 262_144


def without_interpreter():
    """Over a folder of wrappers whose modules are gone, only the short way can answer."""
    wrappers = os.path.abspath("wrappers")
    shutil.copytree(WRAPPERS, wrappers, ignore=shutil.ignore_patterns("__pycache__"))
    place = CachePlace("alone", wrappers=wrappers)
    data, others = request(1, 70), [request(2), request(1, 69)]
    # (a key that rests on what was changed just now is asked again each time)
    time.sleep(2.2)
    place.check(data, 1)
    for name in os.listdir(wrappers):
        if name.endswith(".py"):
            os.unlink(os.path.join(wrappers, name))
    place.check(data, 0)
    for other in others:
        code, said, _ = place.run(other)
        assert code != 0 and said == b"" and place.starts() == 0, f"it is {code}, {said}"


def marks_use():
    place = CachePlace("marks")
    data = request(1)
    place.check(data, 1)
    old = time.time() - 2 * 86_400
    for path in place.files("1"):
        os.utime(path, (old, old), follow_symlinks=False)
    place.check(data, 0, OVER_CACHE_READ_ONLY="1")
    used = lambda: [os.lstat(path).st_mtime > old + 9 for path in [*place.files(".entry1"), *place.files(".text1")]]
    assert not any(used())
    place.check(data, 0)
    assert all(used())


def long_request(count):
    """One that doesn't wait in memory, over so many of the longest artefacts. It is as long as one artefact more: 8,191 are 2^31 bytes."""
    place = CachePlace("long")
    os.mkdir(place.cache, 0o700)
    with open(os.path.join(place.cache, "limit"), "w") as file:
        # (both requests have a place, and something is left for uneven subfolders)
        file.write(str(1024 + 4 * count * ARTEFACT // 1_048_576))
    for filler in b"0" * 100, os.urandom(100):
        length, wanted = write_long(place.path("request"), count, filler)
        for starts in 1, 0:
            with open(place.path("request"), "rb") as file:
                ran = subprocess.run([place.path("links", "made")], stdin=file, capture_output=True, cwd=place.folder, env=place.given({}))
            assert (ran.returncode, ran.stdout, ran.stderr) == (0, wanted, b""), f"{length} bytes: it is {ran}"
            assert place.starts() == starts, f"{length} bytes: it wasn't {starts} starts"
    print(f"tried: a request of {length} bytes")


def write_long(path, count, filler):
    """Writes such a request. Gives its length, and what the compiler makes of it."""
    used = [(b"lib", b"d%d.vhd" % at) for at in range(count)]
    source = bytes(ARTEFACT - len(b"".join(fields(b"lib", b"a.vhd", b"", [(*names, b"") for names in used]))))
    found, length = hashlib.sha256(b"\n"), 0
    with open(path, "wb") as file:
        for part in parts_of(source, used, filler):
            found.update(part)
            length += file.write(part)
    assert length == (count + 1) * ARTEFACT
    return length, found.hexdigest().encode() + b"  -\n"


def parts_of(source, used, filler):
    head = b"".join(fields(b"lib", b"a.vhd", source))
    yield head[:-4] + len(used).to_bytes(4, "little")
    for at, names in enumerate(used):
        artefact = filler + b"%d" % at
        artefact += bytes(ARTEFACT - len(artefact))
        yield b"".join(len(part).to_bytes(4, "little") + part for part in (*names, artefact))


assert os.path.exists(os.path.join(WRAPPERS, HIT)), "nothing was built"
without_interpreter()
marks_use()
long_request(int(os.environ.get("LONG", "290")))
