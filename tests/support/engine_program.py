"""Runs the program over wrappers/over_engine and engines that are scripts: it builds and records what it does without, fewer
slots than compilers hold up nothing, and lost nodes cost no answer. Works in the present folder."""

import os, shutil, signal, subprocess, threading, time
from engine_places import build, make, place_of
from store_reader import records_of
from trial import build_text, run

SLOTS = """until { exec 9>"$PLACE/slot_1"; flock -n 9; } || { exec 9>"$PLACE/slot_2"; flock -n 9; }; do sleep 0.02; done
"$@" 9>&-
"""


def stores_are_shared():
    place = place_of("shared", 'exec "$@"\n')
    text = make(place, 3)
    build(place, 0, text)
    over = store_of(place)
    build(place, 0, build_text([]), over_engine=False)
    shutil.rmtree(place.path("project", "vunit_out"))
    build(place, 0, text, over_engine=False)
    assert store_of(place) == over, "the stores differ"
    build(place, 0, build_text([]))


def store_of(place):
    with open(place.path("project", "vunit_out", "store_a"), "rb") as file:
        return file.read()


def fewer_slots():
    """Eight compilers at once over two slots, with more to hand over and to take than a pipe holds."""
    place = place_of("slots", SLOTS, LONG="1", LATE="0.5")
    build(place, 0, make(place, 8, "-- a long comment\n" * 14_000), "-p", "8")
    assert len(records_of(place.path("project"))) == 8
    begun = [name for name in os.listdir(place.folder) if name.startswith("slot_")]
    assert len(begun) == 2, "the second slot wasn't taken"


def lost_nodes():
    """Half of the engines are killed while their compilers run: each of these is run again."""
    place = place_of("lost", 'mkdir "$PLACE/engine_$$"; exec "$@"\n', LATE="2")
    text, killed = make(place, 16), []

    def kill():
        while len(killed) < 8:
            for name in os.listdir(place.folder):
                if name.startswith("engine_") and len(killed) < 8:
                    os.rmdir(place.path(name))
                    time.sleep(0.1)
                    killed.append(int(name[7:]))
                    os.kill(killed[-1], signal.SIGKILL if len(killed) % 2 else signal.SIGTERM)
            time.sleep(0.01)

    killer = threading.Thread(target=kill)
    killer.start()
    # (where it is SIGKILL the folder of that other side stays)
    found = run(place.path("project"), "--compile", "-p", "16", env={
        **place.environment, "PATH": os.pathsep.join([place.path("cluster"), place.environment["PATH"]])})
    killer.join()
    assert found[:2] == (0, text.encode()), f"lost nodes: it is {found}"
    assert found[2].count(b"another try follows") == 8, f"lost nodes: it says {found[2]}"


def no_answer():
    place = place_of("none", '[ -e "$PLACE/open" ] && exec "$@"; exit 1\n')
    text = make(place, 1)
    build(place, 3, "", said=b"over_engine: no answer: the engine ended\nvunit_run: fault of child\n")
    assert records_of(place.path("project")) == []
    open(place.path("open"), "w").close()
    build(place, 0, text)


def killed_runner():
    place = place_of("killed", 'exec "$@"\n', LATE="1000")
    make(place, 4)
    given = {**place.environment, "PATH": os.pathsep.join([place.path("cluster"), place.environment["PATH"]])}
    for by in signal.SIGKILL, signal.SIGTERM:
        runner = subprocess.Popen([os.environ["VUNIT_RUN"], "--compile", "-p", "4"], cwd=place.path("project"), env=given)
        until = time.monotonic() + 60
        while sum(words.startswith(b"sleep") for words in place.left() if isinstance(words, bytes)) < 4:
            assert time.monotonic() < until, "not all compilers have begun"
            time.sleep(0.02)
        runner.send_signal(by)
        runner.wait()
        place.seconds_until_nothing_is_left()


for work in stores_are_shared, fewer_slots, lost_nodes, no_answer, killed_runner:
    work()
