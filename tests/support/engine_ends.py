"""Stops wrappers/over_engine over commands without end, at fixed moments and at some by chance, by signals, by a closed reader
and with the runner: no process and no folder is left, here or there. Works in the present folder."""

import os, random, signal, statistics, subprocess, sys, time
from engines import WRAPPER, Place, all_at_once

# (one that starts another, and heeds nothing but SIGKILL)
ENDLESS = ["sh", "-c", "trap '' INT TERM HUP QUIT; sleep 1000 & touch \"$PLACE/begun\"; while :; do sleep 1000; done"]
REQUEST = bytes(200_000)
# A start as srun makes one; one over a shell of its own; one of which no signal reaches the other side, as none does by ssh;
# and one that stays in the queue.
ENGINES = {"one process": 'exec "$@"\n', "a shell": '"$@"; exit 1\n', "another session": 'setsid -w "$@"\n',
           "a queue": "sleep 1000\n"}
STOPS = [signal.SIGTERM, signal.SIGINT, signal.SIGHUP, signal.SIGQUIT, signal.SIGKILL, "closed reader", "group"]
MOMENTS = [0, 0.03, 0.1, "begun"]
chance, took, count = random.Random(36), [], 0


# (a signal that is ignored here would be ignored by all children)
for ending in signal.SIGINT, signal.SIGHUP, signal.SIGTERM, signal.SIGQUIT:
    signal.signal(ending, signal.SIG_DFL)


def wait_for(place):
    until = time.monotonic() + 30
    while not os.path.exists(place.path("begun")):
        assert time.monotonic() < until, f"{place.folder}: nothing has begun"
        time.sleep(0.01)


def stop(place, by, moment):
    """One start that is ended at this moment."""
    child = place.start(ENDLESS, REQUEST, start_new_session=True)
    if moment == "begun":
        wait_for(place)
    else:
        time.sleep(moment)
    if by == "closed reader":
        child.stdout.close()
    elif by == "group":
        os.killpg(child.pid, signal.SIGKILL)
    else:
        child.send_signal(by)
    code = child.wait(20)
    if by not in (signal.SIGKILL, "group") and moment == "begun":
        wanted = 128 + (signal.SIGPIPE if by == "closed reader" else by)
        assert code == wanted, f"{place.folder}: by {by} at {moment} it ended with {code}"
    took.append(place.seconds_until_nothing_is_left())


def stops(name, engine, by, moments):
    for number, moment in enumerate(moments):
        if name == "a queue" and (moment == "begun" or by in (signal.SIGKILL, "group")):
            # (what such a job does by itself is the engine's: it ends when it starts)
            continue
        label = by if isinstance(by, str) else signal.Signals(by).name
        stop(Place(f"{name} {label} {number}", engine), by, moment)


RUNNER = """
import subprocess, sys, time
children = [subprocess.Popen(sys.argv[2:], stdin=subprocess.PIPE, stdout=subprocess.PIPE) for _ in range(8)]
for child in children:
    with open(sys.argv[1], "rb") as file:
        child.stdin.write(file.read())
    child.stdin.close()
time.sleep(60)
"""


def runner_ends(name, engine, by):
    """A runner with several of them, which ends alone."""
    place = Place(f"runner {name} {by}", engine)
    with open(place.path("request"), "wb") as file:
        file.write(REQUEST)
    words = ["sh", "-c", 'echo >>"$PLACE/begun"; sleep 1000']
    runner = subprocess.Popen([sys.executable, "-c", RUNNER, place.path("request"), WRAPPER, *words], cwd=place.folder,
                              env=place.environment, stderr=subprocess.DEVNULL)
    wait_for(place)
    until = time.monotonic() + 30
    while os.path.getsize(place.path("begun")) < 8:
        assert time.monotonic() < until, "not all have begun"
        time.sleep(0.02)
    runner.send_signal(by)
    runner.wait()
    took.append(place.seconds_until_nothing_is_left())


def there_ends(by):
    """What runs there is ended alone: the next try answers."""
    place = Place(f"there {by}", 'touch "$PLACE/$$"; exec "$@"\n')
    child = place.start(["sh", "-c", 'wc -c; [ -e "$PLACE/once" ] && exit 3; touch "$PLACE/once" "$PLACE/begun"; exec sleep 1000'],
                        REQUEST)
    wait_for(place)
    os.kill(next(int(name) for name in os.listdir(place.folder) if name.isdigit()), by)
    output = child.stdout.read()
    assert (child.wait(60), output) == (3, b"200000\n"), f"{by} there: {child.returncode} {output!r}"
    place.seconds_until_nothing_is_left()


works = [lambda name=name, engine=engine, by=by: stops(name, engine, by, [*MOMENTS, chance.uniform(0, 0.4)])
         for name, engine in ENGINES.items() for by in STOPS]
works += [lambda by=by, name=name: runner_ends(name, ENGINES[name], by)
          for name in ("one process", "another session") for by in (signal.SIGKILL, signal.SIGTERM)]
works += [lambda by=by: there_ends(by) for by in (signal.SIGTERM, signal.SIGINT)]
all_at_once(works, 8)
print(f"nothing was left after {statistics.median(took):.2f} s, the median of {len(took)}, and after {max(took):.2f} s at most")
assert statistics.median(took) < 1
