"""wrappers/over_cache is killed: at each of its own writes, with half of it done, and at random moments, as many as KILLS says. No answer is wrong
afterwards, nothing is damaged, and nothing is left. Works in the present folder."""

import os, random, signal, subprocess, time
from cache_places import CachePlace, artefact_of, copied_wrappers, request
from engines import all_at_once

# Behind a module this has the call that KILL_AT counts be half done, and the process killed.
KILLED = """

def _counted(call, halve=False):
    def counted(*arguments, **settings):
        left[0] -= 1
        if left[0] == 0:
            if halve:
                call(arguments[0], bytes(arguments[1])[: len(arguments[1]) // 2])
            os.kill(os.getpid(), 9)
        return call(*arguments, **settings)
    return counted


left = [int(os.environb.get(b"KILL_AT", b"0"))]
os.write = _counted(os.write, True)
for _name in ("open", "link", "symlink", "mkdir", "unlink", "rename", "fchmod", "chmod", "utime", "close"):
    setattr(os, _name, _counted(getattr(os, _name)))
"""
WITHOUT_NAMELESS = """

os.O_TMPFILE = os.O_DIRECTORY
"""
SEED, AT_ONCE = 64, 4


def at_each_call(name, more):
    """Over a folder that is empty, and over one that has the texts and an entry that is damaged."""
    wrappers = copied_wrappers(f"wrappers_{name}", {"cache_folder.py": more + KILLED})
    place, at, killed = CachePlace(name, wrappers=wrappers), 0, 0
    place.run(request(900, 2))
    while True:
        at += 1
        data = request(at, 2)
        code, said, _ = place.run(data, KILL_AT=str(at))
        if code == 0:
            break
        assert code == -signal.SIGKILL, f"{name}, call {at}: it ended with {code}"
        killed += 1
        for _ in range(2):
            found = place.run(data)
            assert found == (0, artefact_of(data), b""), f"{name}, after call {at}: it is {found}"
        place.starts()
        place.check(data, 0)
        assert place.tool("--verify")[0] == 0, f"{name}, after call {at}: something is damaged"
    assert killed >= 15, f"{name}: only {killed} calls were killed"
    left = [path for path in place.files() if "/new-" in path]
    assert bool(left) == bool(more), f"{name}: left are {left}"
    if left:
        for path in left:
            os.utime(path, (time.time() - 7_200,) * 2)
        place.tool("--trim")
        assert not [path for path in place.files() if "/new-" in path], "what killed starts have left isn't trimmed"
    print(f"tried: {killed} calls ({name})")


def at_random_moments(count):
    """Each second start is over a request of its own, so that entries are written until the end."""
    chance, place = random.Random(SEED), CachePlace("random")
    requests = [request(number, 4) for number in range(40 + count // 2)]
    begun = time.monotonic()
    for data in requests[:5]:
        place.check(data, 1)
    usual = (time.monotonic() - begun) / 5
    chosen = [requests[40 + at // 2] if at % 2 else chance.choice(requests[:40]) for at in range(count)]
    kills = [(data, chance.uniform(0, 1.3 * usual)) for data in chosen]
    ended = []

    def kill(data, moment):
        child = subprocess.Popen([place.path("links", "made")], stdin=subprocess.PIPE, stdout=subprocess.PIPE, stderr=subprocess.DEVNULL,
                                 cwd=place.folder, env=place.environment)
        try:
            child.stdin.write(data)
            child.stdin.close()
        except BrokenPipeError:
            pass
        time.sleep(moment)
        child.kill()
        said = child.stdout.read()
        assert child.wait() != 0 or said == artefact_of(data), f"a wrong answer: {said}"
        ended.append(child.returncode)

    all_at_once([lambda row=row: kill(*row) for row in kills], AT_ONCE)
    for data in requests:
        found = place.run(data)
        assert found == (0, artefact_of(data), b""), f"after all kills it is {found}"
    code, said, _ = place.tool("--verify")
    assert code == 0, f"something is damaged: {said}"
    until = time.monotonic() + 20
    while place.processes():
        assert time.monotonic() < until, "processes are left"
        time.sleep(0.05)
    place.check_nothing_is_left()
    print(f"tried: {count} kills at random moments, of which {ended.count(-signal.SIGKILL)} came in time")


at_each_call("nameless", "")
at_each_call("named", WITHOUT_NAMELESS)
at_random_moments(int(os.environ.get("KILLS", "100")))
