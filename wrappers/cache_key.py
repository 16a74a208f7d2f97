"""What a command says of itself by `COMMAND --cache-key WORDS`: a key, and on which files it rests. It is asked once, and again when one of
them has another size, other times or another inode.

    cache_key 1
    rests SIZE MTIME CTIME INODE DEVICE PATH    a file or a folder as it was before it was read; times in nanoseconds, a path escaped
    absent PATH                                 nothing is there; something there could change the key
    key
    BYTES                                       the key
"""

import time

import quick_os as os
from run_data import escaped, unescaped

FORM = b"cache_key 1"
# Seconds that a command has to give its key, and within which a change might not show in a file's times.
ASKED_WITHIN, UNSEEN = 20, 2
LIMIT = 1_048_576
# What is remembered: the number of paths and the length of their states, a line feed, each path with a byte 0 behind it, the states, and the
# key's bytes.
KEPT = b"key_2"
NOTHING = b"absent"


def states_of(paths):
    """By what files, folders and what isn't there are known, a line of each."""
    lines, stat = [], os.stat
    for path in paths:
        try:
            found = stat(path)
            lines.append(b"%d %d %d %d %d\n" % (found.st_size, found.st_mtime_ns, found.st_ctime_ns, found.st_ino, found.st_dev))
        except FileNotFoundError:
            lines.append(NOTHING + b"\n")
    return b"".join(lines)


def line_of(path):
    """The line of a file, a folder or of nothing, as it is now."""
    state = states_of([path])[:-1]
    return b"%s %s" % (state if state == NOTHING else b"rests " + state, escaped(path))


def state_in(line):
    """The state in a line, and the path."""
    kind, *numbers, path = line.split(b" ")
    path = unescaped(path)
    is_state = kind == NOTHING and not numbers or kind == b"rests" and len(numbers) == 5 and all(map(bytes.isdigit, numbers))
    if not is_state or b"\0" in path:
        raise ValueError("it is no key")
    return b" ".join(numbers) or NOTHING, path


class CacheKey:
    """A key as a command has given it, and the paths and states of all on which it rests."""

    def __init__(self, text, paths, states):
        self.text, self.paths, self.states = text, paths, states

    def stands(self):
        """Whether nothing on which it rests has changed."""
        try:
            return states_of(self.paths) == self.states
        except OSError:
            return False

    def latest(self):
        """The latest time at which something on which it rests was changed."""
        return max([0, *(int(number) for line in self.states.split(b"\n") for number in line.split(b" ")[1:3])]) / 1e9

    def kept(self):
        """What is remembered of it."""
        return b"%d %d\n%s%s%s" % (len(self.paths), len(self.states), b"".join([path + b"\0" for path in self.paths]), self.states, self.text)


def key_said(text):
    """The key in what a command says."""
    head, is_ours, text = text.partition(b"\nkey\n")
    form, *lines = head.split(b"\n")
    if form != FORM or not is_ours:
        raise ValueError("it is no key")
    states = list(map(state_in, lines))
    return CacheKey(text, [path for _, path in states], b"".join([state + b"\n" for state, _ in states]))


def key_kept(text):
    """The key in what was remembered."""
    head, _, text = text.partition(b"\n")
    count, length = map(int, head.split(b" "))
    *paths, text = text.split(b"\0", count)
    return CacheKey(text[length:], paths, text[:length])


def asked_for(command, words):
    """The key that a command gives now: an empty one, which rests on the command, where it has none."""
    none = CacheKey(b"", [command], states_of([command]))
    import signal, subprocess

    try:
        child = subprocess.Popen([command, b"--cache-key", *words], stdin=subprocess.DEVNULL, stdout=subprocess.PIPE,
                                 stderr=subprocess.DEVNULL, start_new_session=True)
    except OSError:
        return none
    try:
        text, _ = child.communicate(timeout=ASKED_WITHIN)
        return key_said(text) if child.returncode == 0 and len(text) <= LIMIT else none
    except (subprocess.TimeoutExpired, ValueError):
        return none
    finally:
        if child.returncode is None:
            os.killpg(child.pid, signal.SIGKILL)
            child.wait()


def key_of(state, command, words, stands=False):
    """The key of a command with these words: the remembered one while it is valid, else the one that it gives now."""
    named = [command, os.environb.get(b"PATH", b""), os.getcwdb(), *words]
    try:
        key = key_kept(state.remembered(KEPT, named))
        if stands or key.stands():
            return key
    except ValueError:
        pass
    begun = time.time()
    key = asked_for(command, words)
    if key.latest() + UNSEEN < begun:
        state.remember(KEPT, named, key.kept())
    return key
