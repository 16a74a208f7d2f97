"""What the keeper needs for a hook alone. Whatever a user's command has started becomes a child of the keeper when its parent
ends, also in another session, and is ended with the command."""

# Why it is so:
# Orphans become children of the keeper, since a daemon leaves the hook's process group.

import _signal as signal
import ctypes, os, time

PR_SET_CHILD_SUBREAPER = 36
# How long processes are ended that start others all the time.
SECONDS = 10


def take_orphans():
    """Has the system give the present process all orphans among its descendants."""
    ctypes.CDLL(None).prctl(PR_SET_CHILD_SUBREAPER, 1, 0, 0, 0)


def children():
    """The processes that the present one is the parent of."""
    for name in os.listdir("/proc"):
        if name.isdigit():
            try:
                with open(f"/proc/{name}/stat", "rb") as file:
                    parent = file.read().rpartition(b")")[2].split()[1]
            except (OSError, IndexError):
                # (it has ended)
                continue
            if int(parent) == os.getpid():
                yield int(name)


def end_children():
    """Ends all remaining processes, which may be starting something."""
    until = time.monotonic() + SECONDS
    while (left := list(children())) and time.monotonic() < until:
        for process in left:
            os.kill(process, signal.SIGKILL)
            os.waitpid(process, 0)
