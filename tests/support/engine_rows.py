"""Runs wrappers/over_engine over engines that lie, cut, change, repeat and fall silent, and over commands of all kinds. Works
in the present folder."""

import hashlib, os, re, shutil
from bench_requests import Run
from engines import WRAPPER, Place, all_at_once

PLAIN = 'exec "$@"\n'
COUNT = ["sh", "-c", "wc -c; exit 3"]
REQUEST = bytes(1000)
COUNTED, NONE = (3, b"1000\n"), (75, b"")
REPLAY = """[ ! -e "$PLACE/kept" ] || { cat "$PLACE/kept"; exit; }
"$@" >"$PLACE/kept"; cat "$PLACE/kept"
"""
ONCE = '[ -e "$PLACE/once" ] || { touch "$PLACE/once"; %s; }\n'

# A name, an engine, what comes of a count of 1,000 bytes, at most how many seconds it takes, and settings.
ROWS = [
    ("the engine starts it", PLAIN, COUNTED, 20),
    ("the last byte is cut, and the code is 0", '"$@" | head -c -1; exit 0', NONE, 40),
    ("the engine ends with 1", '"$@"; exit 1', COUNTED, 20),
    ("the engine ends with 255", '"$@"; exit 255', COUNTED, 20),
    ("there is no node", "exit 1", NONE, 40),
    ("there is no node, and the code is 0", "head -c 500 >/dev/null", NONE, 40),
    ("the request is cut", 'head -c 300 | "$@"', NONE, 40),
    ("the end of the request is kept back", '{ head -c 1050; sleep 100; } | "$@"', NONE, 60, {"OVER_ENGINE_SILENCE": "3"}),
    ("lines before and after", 'echo before; "$@"; echo after', COUNTED, 20),
    ("text before and after", 'printf before; "$@"; printf after', COUNTED, 20),
    ("the first try fails", ONCE % "exit 1" + PLAIN, COUNTED, 20),
    ("the first try is cut", ONCE % '"$@" | head -c -1; exit 0' + PLAIN, COUNTED, 20),
    ("the first two tries fail", ONCE % "exit 1" + ONCE.replace("once", "twice") % "exit 1" + PLAIN, COUNTED, 30),
    ("silence", '"$@" | head -n 1; sleep 100', NONE, 60, {"OVER_ENGINE_SILENCE": "3"}),
    ("silence with noise", '"$@" | head -n 1; while echo noise; do sleep 0.2; done', NONE, 60, {"OVER_ENGINE_SILENCE": "3"}),
    ("silence with much noise", '"$@" | head -n 1; yes', NONE, 60, {"OVER_ENGINE_SILENCE": "3"}),
    ("the engine ends while noise goes on", 'yes 2>/dev/null & exit 0', NONE, 40),
    ("longer in the queue than in silence", 'sleep 5; exec "$@"', COUNTED, 30, {"OVER_ENGINE_SILENCE": "3"}),
    ("too long in the queue", "sleep 100", NONE, 20, {"OVER_ENGINE_QUEUE": "1"}),
    ("a limit that is none", PLAIN, NONE, 20, {"OVER_ENGINE_QUEUE": "soon"}),
    ("a byte too many in the answer", '"$@" | sed "s/^1000$/10000/"', NONE, 40),
    ("a byte too few in the answer", '"$@" | sed "s/^1000$/100/"', NONE, 40),
    ("the answer is there twice", '"$@" >answer; cat answer answer', COUNTED, 20),
    ("the engine goes on", '"$@"; sleep 100', COUNTED, 40),
    ("the engine leaves one behind with its output", '"$@"; sleep 25 2>/dev/null & exit 1', COUNTED, 20),
    ("the engine ends while one goes on without an answer", "sleep 20 2>/dev/null & exit 0", NONE, 40),
    ("there is no engine", PLAIN, NONE, 10, {"OVER_ENGINE": "/no/such/engine"}),
    ("its TMPDIR is of another machine", 'TMPDIR=/no/such/folder exec "$@"', COUNTED, 20),
    ("the other side is another one", 'read -r form rest; echo "over_engine_0 $rest" | "$@"', NONE, 40),
]


def row(number, name, engine, wanted, seconds, settings=()):
    place = Place(f"row_{number}", engine, **dict(settings))
    code, output, said, took = place.run(COUNT, REQUEST)
    assert (code, output) == wanted, f"{name}: it is {code} {output!r} {said!r}"
    tells_why = re.search(rb"^over_engine: no answer: .*(?<!another try follows)\n\Z", said, re.M) is not None
    assert (code == 75) == tells_why, f"{name}: it says {said!r}"
    assert took <= seconds, f"{name}: it took {took} s"


def replay():
    place = Place("replay", REPLAY)
    assert place.run(COUNT, REQUEST)[:2] == COUNTED
    found = place.run(COUNT, REQUEST + b"1")
    assert found[:2] == NONE, f"an answer of before: it is {found}"


# A command for `sh -c`, and what comes of it.
ENDS = [
    ("cat >/dev/null; exit 0", (0, b"")), ("cat; exit 1", (1, REQUEST)), ("exit 2", (2, b"")), ("exit 42", (42, b"")),
    ("exit 126", (126, b"")), ("exit 137", (137, b"")), ("exit 143", (143, b"")), ("exit 255", (255, b"")),
    ("echo some; exit 75", NONE), ("echo half; kill -KILL $$", NONE), ("echo half; kill -TERM $$", NONE),
    ("kill -XCPU $$", NONE), ("echo some; kill -SEGV $$", (139, b"some\n")), ("kill -ABRT $$", (134, b"")),
    (ONCE % "echo half; kill -KILL $$" + "wc -c; exit 3", COUNTED), (ONCE % "exit 75" + "wc -c; exit 3", COUNTED),
    ("sleep 5; wc -c; exit 3", COUNTED), ("echo warned >&2; wc -c; exit 3", COUNTED),
    # (what one that is left behind prints belongs to the output, as where no engine is)
    ("(sleep 1; echo late) & echo soon", (0, b"soon\nlate\n")),
    ("(sleep 20 >/dev/null 2>&1) & echo soon", (0, b"soon\n")),
    ("exec >&-; sleep 1; exit 4", (4, b"")), ("ls -A; rm -rf ../request; mkdir -p a/b; ln -s a c; touch a/d", (0, b"")),
]


def end_of(number, text, wanted):
    place = Place(f"end_{number}", PLAIN, OVER_ENGINE_SILENCE="4")
    code, output, said, _ = place.run(["sh", "-c", text], REQUEST)
    assert (code, output) == wanted, f"{text}: it is {code} {output!r} {said!r}"
    assert (b"warned\n" in said) == ("warned" in text), f"{text}: it says {said!r}"
    place.seconds_until_nothing_is_left()


def bytes_through():
    place = Place("bytes", PLAIN, {"sum": "sha256sum", "most": 'cat >/dev/null; head -c "$1" /dev/urandom | tee "$PLACE/made"'})
    every = bytes(range(256))
    for data in b"", b"\n", every, every * 4096, os.urandom(20_000_001):
        code, output, said, _ = place.run(["sum"], data)
        assert (code, output) == (0, hashlib.sha256(data).hexdigest().encode() + b"  -\n"), f"{len(data)} bytes: {said!r}"
    for size in 0, 1, 65_536, 262_144, 262_145, 400_000:
        code, output, said, _ = place.run(["most", str(size)], b"")
        with open(place.path("made"), "rb") as made:
            assert (code, output) == (0, made.read(262_145)), f"{size} bytes come back otherwise: {code} {said!r}"


def words_through():
    place = Place("words", PLAIN, {"show": "printf '%s\\0' \"$@\""})
    words = ["", " ", "a b", "it's", '"', "$HOME", "*", "%j", "a\nb", "\\", "--inside", "ü", b"\xff\xfe", "-"]
    code, output, said, _ = place.run(["show", *words])
    assert (code, output) == (0, b"".join(os.fsencode(word) + b"\0" for word in words)), f"words: {code} {output!r} {said!r}"
    for word in "no_such", "./engine", "bin/show":
        code, output, said, took = place.run([word], REQUEST)
        assert (code, output) == NONE and b"has no command" in said and took < 10, f"{word}: {code} {output!r} {said!r}"
    code, output, said, _ = place.run([], REQUEST)
    assert (code, output) == NONE and b"no command is named" in said, f"no words: {code} {output!r} {said!r}"


def links():
    """A link's name is the command; links and copies of the wrapper are never what runs there."""
    place = Place("links", PLAIN, {"count": "wc -c; exit 3", "copied": "wc -c; exit 3"})
    os.mkdir(place.path("cluster"))
    os.symlink(WRAPPER, place.path("linked"))
    for name in "count", "alone":
        os.symlink(place.path("linked"), place.path("cluster", name))
    shutil.copy(WRAPPER, place.path("cluster", "copied"))
    place.environment["PATH"] = place.path("cluster") + os.pathsep + place.environment["PATH"]
    for name, wanted, why in ("count", COUNTED, b""), ("alone", NONE, b"has no command alone"), ("copied", NONE, b"is a copy"):
        code, output, said, _ = place.run([], REQUEST, program=[place.path("cluster", name)])
        assert (code, output) == wanted and why in said, f"{name}: it is {code} {output!r} {said!r}"


RUN = Run([], b"tb_lib", b"tb", b"sim", [b"one", b"two"])
# A command, and the code and the results that come of it.
BENCHES = [
    ('echo test_start:one >"$1"', 0, b"test_start:one\n"), ('echo test_start:one >"$1"; exit 1', 1, b"test_start:one\n"),
    ('[ -d "${1%/*}" ] && [ ! -e "$1" ]', 0, None), (': >"$1"; exit 1', 1, b""), ('mkdir "$1"', 0, None), ('mkfifo "$1"', 0, None),
    ('head -c 2000000 /dev/zero >"$1"', 0, bytes(1_048_577)), ('echo half >"$1"; kill -KILL $$', 75, None),
    (ONCE % 'echo half >"$1"; kill -KILL $$' + 'echo whole >>"$1"', 0, b"whole\n"),
]


def bench(number, text, code, results):
    place = Place(f"bench_{number}", PLAIN)
    at = os.fsencode(place.path()) + b"/" + RUN.results
    os.makedirs(os.path.dirname(at))
    ran = place.run(["sh", "-c", text, "sh", RUN.results], RUN.request())
    found = None
    if os.path.exists(at):
        with open(at, "rb") as file:
            found = file.read()
    assert (ran[0], found) == (code, results), f"{text}: it is {ran[:3]}, and the results are {found!r:.80}"
    assert os.listdir(os.path.dirname(at)) == ([] if results is None else ["vunit_results".encode()])
    place.seconds_until_nothing_is_left()


def bench_requests():
    """Requests of benches that are cut anywhere, or whose path isn't one in a folder, are the command's to judge."""
    whole, place = RUN.request(), Place("bench_requests", PLAIN)
    paths = [whole.replace(RUN.results, path.ljust(len(RUN.results), b"x")) for path in (b"/", b"../", b"a//", b"a\0")]
    edges = [sum(map(len, RUN.parts[:count])) for count in range(len(RUN.parts))]
    for data in [*paths, *(whole[:edge] for edge in edges), whole.replace(b"\2\0\0\0", b"\xff\xff\xff\xff", 1)]:
        code, output, said, _ = place.run(["sh", "-c", "wc -c; exit 3"], data)
        assert (code, output) == (3, b"%d\n" % len(data)), f"{data!r}: it is {code} {output!r} {said!r}"
    assert sorted(os.listdir(place.folder)) == ["bin", "engine", "tmp"]


works = [bytes_through, words_through, links, replay, bench_requests]
for kind, rows in (row, ROWS), (end_of, ENDS), (bench, BENCHES):
    works += [lambda kind=kind, number=number, parts=parts: kind(number, *parts) for number, parts in enumerate(rows)]
all_at_once(works)
