"""wrappers/over_cache over a compiler that is a script: what is a hit and what isn't, whatever the folder holds or refuses. Works in the present
folder."""

import os, shutil, signal, subprocess, sys, time
from cache_places import COMPILER, NO_KEY, WRAPPERS, CachePlace, artefact_of, change, copied_wrappers, request
from engines import all_at_once

POOR_HASH = """

def text_digest(data):
    return bytes(4) + len(data).to_bytes(4, "little")


def entry_digest(data):
    return bytes(ENTRY_DIGEST)
"""
POOR_IN_C = [("return ~value;", "return 0 * value;"),
             ("memcpy(digest, h, size);", "memcpy(digest, h, size);\n    if (size == ENTRY_DIGEST) memset(digest, 0, size);")]


def hits_and_misses():
    place = CachePlace("hits")
    first = request(1)
    place.check(first, 1)
    place.check(first, 0)
    # (each part of the request counts)
    place.check(first, 1, words=("-a",))
    place.check(first, 1, OVER_CACHE_KEY="2")
    source = first.replace(b"source 1\n", b"source 2\n", 1)
    below = first.replace(b"artefact 1 ", b"artefact 3 ", 1)
    short = first.replace(b"artefact 0 ", b"artefact 4 ", 1)
    path = first.replace(b"d2.vhd", b"e2.vhd", 1)
    for other in source, below, short, path:
        place.check(other, 1)
        place.check(other, 0)
    place.check(first, 0)
    # (an invalid request is the command's to refuse, and another code than 0 isn't kept)
    place.check(b"no request", 1)
    place.check(b"no request", 1)
    place.check(first + b"x", 1)
    assert os.stat(place.cache).st_mode & 0o777 == 0o700
    without = place.run(first, OVER_CACHE=None)
    assert without == (0, artefact_of(first), b"") and place.starts() == 1, f"without a folder it is {without}"
    place.check_nothing_is_left()


def many_files():
    """More files than a list of references has, of which one changes."""
    place = CachePlace("many")
    for count in 63, 64, 65, 200:
        place.check(request(1, count), 1)
        place.check(request(1, count), 0)
    changed = request(1, 200).replace(b"artefact 131 ", b"artefact 999 ", 1)
    place.check(changed, 1)
    place.check(changed, 0)
    place.check(request(1, 200), 0)


def codes_and_outputs():
    place = CachePlace("codes", NO_KEY + 'echo start >>"$PLACE/starts"\ncat >/dev/null\necho said >&2\n'
                                'head -c "$LENGTH" /dev/zero\n[ "$CODE" -lt 128 ] || kill -"$((CODE - 128))" $$\nexit "$CODE"\n')
    for code, kept in (0, True), (1, False), (75, False), (128 + signal.SIGTERM, False), (128 + signal.SIGKILL, False):
        data = request(code)
        wanted = (code if code < 128 else 128 - code, bytes(7), b"said\n")
        for starts in (1, 0 if kept else 1):
            found = place.run(data, CODE=str(code), LENGTH="7")
            assert found == wanted, f"code {code}: it is {found}"
            assert place.starts() == starts, f"code {code}"
    for length, starts in (262_144, 0), (262_145, 1):
        data = request(length)
        for wanted in 1, starts:
            found = place.run(data, CODE="0", LENGTH=str(length))
            assert found == (0, bytes(length), b"said\n"), f"{length} bytes: it is {len(found[1])}"
            assert place.starts() == wanted, f"{length} bytes"


def keys():
    """A command's own key, which is asked again when that on which it rests has changed."""
    keyed = COMPILER.replace(NO_KEY, """#!/bin/sh
if [ "$1" = --cache-key ]; then
    echo asked >>"$PLACE/asked"
    if [ -e "$PLACE/rested" ]; then line="rests $(stat -c '%s %.Y %.Z %i %d' "$PLACE/rested" | sed 's/\\.//g') $PLACE/rested"
    else line="absent $PLACE/rested"; fi
    printf 'cache_key 1\\n%s\\nkey\\n' "$line"
    cat "$PLACE/rested" 2>/dev/null || echo none
    exit 0
fi
""")
    place = CachePlace("keys", keyed, OVER_CACHE_KEY=None)

    def asked():
        path = place.path("asked")
        count = len(open(path).readlines()) if os.path.exists(path) else 0
        shutil.rmtree(path, ignore_errors=True) if os.path.isdir(path) else count and os.unlink(path)
        return count

    data = request(1)
    place.check(data, 1)
    place.check(data, 0)
    assert asked() == 1
    for text, starts in ("one", 1), ("two", 1), ("one", 0):
        with open(place.path("rested"), "w") as file:
            file.write(text)
        old = time.time() - 60
        # (the system's own time of a change is later: until two seconds have gone by the key is asked each time)
        os.utime(place.path("rested"), (old, old))
        time.sleep(2.2)
        place.check(data, starts)
        place.check(data, 0)
        assert asked() == 1, f"with {text} it was asked again"
    os.unlink(place.path("rested"))
    place.check(data, 0)
    assert asked() == 1
    bare = CachePlace("bare", OVER_CACHE_KEY=None)
    found = bare.run(data)
    assert found[0] == 0 and b"made gives no --cache-key, so it isn't cached: set OVER_CACHE_KEY" in found[2], found
    bare.starts()
    bare.check(data, 1)
    assert not bare.files(), "something was kept without a key"


def collisions():
    wrappers = copied_wrappers("poor_hash", {"cache_hash.py": POOR_HASH}, POOR_IN_C)
    places = [CachePlace(f"collisions_{at}", wrappers=wrappers) for at in (0, 1)]
    for at, place in enumerate(places):
        for number in range(10):
            place.check(request(10 * at + number), 1)
        for number in range(10):
            place.check(request(10 * at + number), 0)
        assert len({os.path.dirname(path) for path in place.files("1")}) == 1, "the hash isn't poor"
        assert len(place.files(".9.entry1")) == 1
    # (merged by a tool that keeps existing files, equal names stand for other texts)
    merge(places[1].cache, places[0].cache)
    for number in range(20):
        data = request(number)
        found = places[0].run(data)
        assert found == (0, artefact_of(data), b""), f"merged, request {number}: it is {found}"


def merge(source, target):
    for folder, _, names in os.walk(source):
        into = os.path.join(target, os.path.relpath(folder, source))
        os.makedirs(into, exist_ok=True)
        for name in names:
            if not os.path.lexists(os.path.join(into, name)):
                shutil.copy2(os.path.join(folder, name), os.path.join(into, name), follow_symlinks=False)


def merged_in_use():
    """Two folders, each of which gets what the other has while both are in use."""
    places = [CachePlace(f"merged_{at}") for at in (0, 1)]

    def build(place, numbers):
        for number in numbers:
            data = request(number)
            found = place.run(data)
            assert found == (0, artefact_of(data), b""), f"it is {found}"

    def merge_often():
        for _ in range(20):
            merge(places[0].cache, places[1].cache)
            merge(places[1].cache, places[0].cache)
            time.sleep(0.02)

    for place in places:
        os.mkdir(place.cache, 0o700)
    all_at_once([lambda: build(places[0], range(0, 12)), lambda: build(places[1], range(8, 20)), merge_often])
    merge(places[0].cache, places[1].cache)
    places[1].starts()
    for number in range(20):
        places[1].check(request(number), 0)


def entries_of_any_bytes():
    place = CachePlace("bytes")
    data = request(1, 70)
    place.check(data, 1)
    entry, = place.files(".entry1")
    # (the longest is a list of references)
    texts = sorted(place.files(".text1"), key=os.path.getsize)
    for path in entry, texts[0], texts[-1]:
        size = os.path.getsize(path)
        for damage in {"at": 0}, {"at": size // 2}, {"at": size - 1}, {"cut": size // 2}, {"cut": 0}, {"cut": size - 1}:
            with open(path, "rb") as file:
                whole = file.read()
            change(path, **damage)
            found = place.run(data)
            assert found == (0, artefact_of(data), b""), f"{path}, {damage}: it is {found}"
            # (the mending text may have another name)
            place.starts()
            place.check(data, 0)
            if os.path.exists(path) and open(path, "rb").read() != whole:
                with open(path, "wb") as file:
                    file.write(whole)
    for bad in os.mkdir, os.mkfifo, lambda path: os.symlink("/dev/zero", path), lambda path: os.symlink(path, path):
        os.unlink(entry)
        bad(entry)
        found = place.run(data)
        assert found[:2] == (0, artefact_of(data)), f"{bad}: it is {found}"
        os.rmdir(entry) if os.path.isdir(entry) else os.path.lexists(entry) and os.unlink(entry)
        place.starts()
        place.run(data)
        place.starts()
        place.check(data, 0)
    change(entry, at=20)
    code, said, _ = place.tool("--verify")
    assert code == 1 and b"damaged, and removed: " + os.fsencode(entry) in said, said
    assert place.tool("--verify")[0] == 0


def refused_folders():
    place = CachePlace("refused")
    data = request(1)
    os.mkdir(place.cache)
    os.chmod(place.cache, 0o777)
    found = place.run(data)
    assert found[:2] == (0, artefact_of(data)), found
    assert found[2] == b"over_cache: it isn't used: everybody may write %s: chmod o-w it\n" % os.fsencode(place.cache), found
    place.starts()
    place.check(data, 1)
    assert not place.files()
    os.rmdir(place.cache)
    with open(place.cache, "w"):
        pass
    found = place.run(data)
    assert found[:2] == (0, artefact_of(data)) and place.run(data)[0] == 0, found
    only_read = CachePlace("only_read", OVER_CACHE_READ_ONLY="1")
    found = only_read.run(data)
    assert found[:2] == (0, artefact_of(data)) and b"there is no folder" in found[2], found
    only_read.run(data, OVER_CACHE_READ_ONLY=None)
    only_read.starts()
    before = [(path, os.lstat(path).st_mtime_ns) for path in only_read.files()]
    only_read.check(data, 0)
    only_read.check(request(2), 1)
    only_read.check(request(2), 1)
    assert before == [(path, os.lstat(path).st_mtime_ns) for path in only_read.files()], "something was written"


def folder_that_is_away():
    """A pipe nobody writes stands for a file system that doesn't answer."""
    place = CachePlace("away")
    data = request(1)
    os.mkdir(place.cache, 0o700)
    os.mkfifo(os.path.join(place.cache, "limit"))
    begun = time.monotonic()
    found = place.run(data)
    took = time.monotonic() - begun
    assert found[:2] == (0, artefact_of(data)) and took >= 2, f"{took} s: {found}"
    assert found[2].endswith(b"cache didn't answer within 2 s, and counts as missing for 300 s\n"), found
    place.starts()
    for _ in range(3):
        place.check(data, 1)
    assert not place.processes(), "who asked the folder is left"
    os.unlink(os.path.join(place.cache, "limit"))
    mark, = [name for name in os.listdir(place.path("tmp", f"over_cache_{os.getuid()}")) if name.startswith("away_")]
    mark = place.path("tmp", f"over_cache_{os.getuid()}", mark)
    # (a clock that goes back doesn't make it longer)
    for moment, starts in (time.time() - 250, 1), (time.time() - 310, 1), (time.time() + 900, 0):
        open(mark, "w").close()
        os.utime(mark, (moment, moment))
        place.check(data, starts)


def clock_that_goes_back():
    place = CachePlace("clock")
    for number in range(4):
        place.check(request(number), 1)
    late = time.time() + 10 * 86_400
    for path in place.files("1"):
        os.utime(path, (late, late), follow_symlinks=False)
    for number in range(4):
        place.check(request(number), 0)


def sixteen_writers():
    """The artefact is another one at each start: all get the one that came first."""
    place = CachePlace("writers", NO_KEY + 'echo start >>"$PLACE/starts"\ncat >/dev/null\n'
                       # (none ends before four have begun)
                       'until [ "$(wc -l <"$PLACE/starts")" -ge 4 ]; do sleep 0.05; done\n'
                       'head -c 9 /dev/urandom | od -An -tx1\n')
    data, found = request(1), []
    for _ in range(3):
        shutil.rmtree(place.cache, ignore_errors=True)
        del found[:]
        all_at_once([lambda: found.append(place.run(data))] * 16)
        assert len({*found}) == 1 and found[0][0] == 0, f"there are {len({*found})} answers: {found}"
        assert place.starts() >= 4
        assert place.run(data) == found[0] and place.starts() == 0
        assert len(place.files(".entry1")) == 1


def stored_meanwhile():
    """Another process stores a text after this one has looked for it: all have its name, also in place of a damaged one."""
    sys.path.insert(0, WRAPPERS)
    from cache_folder import CacheFolder

    path = os.fsencode(os.path.abspath("meanwhile"))
    ours, others = CacheFolder(path, True), CacheFolder(path, True)
    add = ours.add
    for text, is_damaged in (b"one" * 100, False), (b"two" * 100, True):
        if is_damaged:
            change(others.text_path(others.add_text(text)), at=0)
        names = []

        def add_later(*given):
            names.append(others.add_text(text))
            return add(*given)

        ours.add = add_later
        names += [ours.add_text(text), others.add_text(text)]
        assert len(names) == 3 and len({*names}) == 1, f"a text is stored twice: {names}"
        stored = [name for _, _, files in os.walk(path) for name in files if name.endswith(b".text1")]
        assert len(stored) == (3 if is_damaged else 1), f"these are left: {stored}"


def two_users():
    """Two users of one group, of whom neither lets others read by default."""
    place = CachePlace("users")
    reach = ["test", "-x", os.path.join(place.wrappers, "over_cache"), "-a", "-r", place.folder]
    if subprocess.run(reach, user=4001, group=4321, extra_groups=[]).returncode != 0:
        print("not tried: two users, since another user can't reach the wrappers")
        return
    os.mkdir(place.cache)
    os.chown(place.cache, 0, 4321)
    os.chmod(place.cache, 0o2770)
    for folder in place.folder, place.tmp:
        os.chmod(folder, 0o777)
    for number in range(8):
        user = 4001 + number % 2
        data = request(number // 2)
        found = place.run(data, user=user, group=4321)
        assert found == (0, artefact_of(data), b""), f"user {user}: it is {found}"
        assert place.starts() == (1 if number % 2 == 0 else 0), f"user {user}, request {number // 2}"
    assert {os.lstat(path).st_gid for path in place.files("1")} == {4321}
    other = place.run(request(0), user=4003, group=4444)
    assert other[:2] == (0, artefact_of(request(0))) and place.starts() == 1, f"one who may not read: it is {other}"


def trimming_while_others_read():
    place = CachePlace("trimming")
    requests = [request(number, 6) for number in range(12)]
    os.mkdir(place.cache, 0o700)
    with open(os.path.join(place.cache, "limit"), "w") as file:
        file.write("1\n")
    ended = []

    def read(begin):
        for number in range(begin, begin + 12):
            data = requests[number % len(requests)]
            found = place.run(data)
            assert found == (0, artefact_of(data), b""), f"it is {found}"
        ended.append(begin)

    def trim():
        while len(ended) < 4:
            assert place.tool("--trim")[0] == 0
            time.sleep(0.05)

    all_at_once([*(lambda begin=begin: read(begin) for begin in (0, 3, 6, 9)), trim])


def least_recently_used():
    place = CachePlace("used")
    requests = [request(number) for number in range(10)]
    for data in requests:
        place.check(data, 1)
    old = time.time() - 3 * 86_400
    for path in place.files("1"):
        os.utime(path, (old, old), follow_symlinks=False)
    os.makedirs(os.path.join(place.cache, "00"), exist_ok=True)
    with open(os.path.join(place.cache, "00", "of-another-form"), "wb") as file:
        file.write(bytes(20_000))
    os.utime(file.name, (old - 9, old - 9))
    for data in requests[:3]:
        place.check(data, 0)
    used = [path for path in place.files("1") if os.lstat(path).st_mtime > old + 9]
    assert used, "no use was marked"
    with open(os.path.join(place.cache, "limit"), "w") as file:
        # (so a subfolder may hold 8,192 bytes)
        file.write("2\n")
    assert place.tool("--trim")[0] == 0
    assert not os.path.exists(file.name) or "limit" in file.name
    assert not os.path.exists(os.path.join(place.cache, "00", "of-another-form")), "a file of another form stays"
    code, said, _ = place.tool("--stats")
    assert code == 0 and b"\nlimit 2\n" in said, said


def full_disk():
    place = CachePlace("full")
    os.mkdir(place.cache, 0o700)
    mounted = subprocess.run(["mount", "-t", "tmpfs", "-o", "size=128k,mode=0700", "none", place.cache], capture_output=True)
    if mounted.returncode != 0:
        print("not tried: a full disk, since nothing can be mounted")
        return
    try:
        for number in range(12):
            data = request(number, 40)
            found = place.run(data)
            assert found[:2] == (0, artefact_of(data)), found
        for number in range(12):
            data = request(number, 40)
            assert place.run(data)[:2] == (0, artefact_of(data))
        said = place.run(request(41, 40), TMPDIR=place.folder)[2]
        assert said.endswith(b"takes nothing more: No space left on device\n"), said
        assert place.tool("--verify")[0] == 0
    finally:
        subprocess.run(["umount", place.cache], check=True)


def ends_with_the_runner():
    """The command ends when nobody reads the answer any more, and by the signals that end the wrapper."""
    place = CachePlace("ends", NO_KEY + 'cat >/dev/null\n: >"$PLACE/begun"\nexec sleep 1000\n')
    for by in "reader", signal.SIGTERM, signal.SIGINT, signal.SIGHUP:
        child = subprocess.Popen([place.path("links", "made")], stdin=subprocess.PIPE, stdout=subprocess.PIPE, cwd=place.folder,
                                 env=place.environment)
        child.stdin.write(request(1))
        child.stdin.close()
        until = time.monotonic() + 60
        while not os.path.exists(place.path("begun")):
            assert time.monotonic() < until, "the command hasn't begun"
            time.sleep(0.01)
        os.unlink(place.path("begun"))
        child.stdout.close() if by == "reader" else child.send_signal(by)
        code = child.wait(60)
        assert code == 128 + (signal.SIGPIPE if by == "reader" else by), f"{by}: it ended with {code}"
        assert not place.processes(), f"{by}: something is left"
        assert not place.files(), f"{by}: something was kept"
    place.check_nothing_is_left()


def explained():
    place = CachePlace("explained")
    assert place.tool("--explain", "lib", "f1.vhd")[:2] == (2, b"")
    first = request(1)
    place.check(first, 1)
    code, said, _ = place.tool("--explain", "lib", "f1.vhd")
    assert code == 0 and b"the last one that missed was the first" in said, said
    rows = [(first.replace(b"source 1\n", b"source 2\n", 1), (), {}, b"the source, line 1: source 2\n"),
            (first.replace(b"artefact 1 ", b"artefact 3 ", 1), (), {}, b"the artefact of lib, d1.vhd is another one\n"),
            (first, ("-b",), {}, b"the words, line 1: -b\n"), (first, (), {"OVER_CACHE_KEY": "9"}, b"OVER_CACHE_KEY, line 1: 9\n")]
    for data, words, settings, wanted in rows:
        place.check(data, 1, words=words, **settings)
        code, said, _ = place.tool("--explain", "lib", "f1.vhd")
        assert code == 0 and said.endswith(b"\n" + wanted), f"{wanted}: it says {said}"
    assert place.tool("--explain", "lib", "f9.vhd")[0] == 1
    assert place.tool("--explain", "lib")[0] == place.tool("--other")[0] == 2


def no_command():
    place = CachePlace("none")
    os.unlink(place.path("bin", "made"))
    code, said, error = place.run(request(1))
    assert (code, said, error) == (75, b"", b"over_cache: no answer: there is no command made behind this one in PATH\n"), (code, error)


# (a signal that is ignored here, as in a shell's background job, would be ignored by all children)
for ending in signal.SIGINT, signal.SIGHUP, signal.SIGTERM:
    signal.signal(ending, signal.SIG_DFL)
works = [hits_and_misses, many_files, codes_and_outputs, keys, collisions, merged_in_use, entries_of_any_bytes, refused_folders,
         folder_that_is_away, clock_that_goes_back, trimming_while_others_read, least_recently_used, full_disk, ends_with_the_runner,
         explained, no_command]
all_at_once(works, 8)
sixteen_writers()
stored_meanwhile()
if os.getuid() == 0:
    two_users()
else:
    print("not tried: two users, for which it needs root")
