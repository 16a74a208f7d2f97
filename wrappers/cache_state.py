"""What over_cache remembers on this machine, for one user: keys that commands have given, messages, and folders that don't
answer.

It lies in over_cache_UID in TMPDIR, and is trusted only where nobody else may write it. Everything may be lost at any time.
"""

import time

import quick_os as os
from cache_folder import read_file
from cache_hash import SUM, entry_digest, sum_of

# Seconds: that a folder has to answer, that one counts as missing that didn't, and between two times that the same is said.
ANSWERS_WITHIN, AWAY, SAID_AGAIN = 2, 300, 300


def named(words):
    """Words as one text, from which they can be told."""
    return b"".join(b"%d:%s" % (len(word), word) for word in words)


class LocalState:
    def __init__(self):
        base = os.environb.get(b"TMPDIR") or b"/tmp"
        self.folder = b"%s/over_cache_%d" % (base, os.getuid())
        try:
            try:
                found = os.lstat(self.folder)
            except FileNotFoundError:
                try:
                    os.mkdir(self.folder, 0o700)
                except FileExistsError:
                    pass
                found = os.lstat(self.folder)
            self.is_ours = found.st_mode & 0o170077 == 0o040000 and found.st_uid == os.getuid()
        except OSError:
            self.is_ours = False

    def path(self, kind, *words):
        return b"%s/%s_%s" % (self.folder, kind, entry_digest(named(words)).hex().encode())

    def is_recent(self, path, seconds):
        """Whether a file exists that was written less than this number of seconds ago. (A time that is yet to come isn't.)"""
        try:
            return self.is_ours and 0 <= time.time() - os.lstat(path).st_mtime < seconds
        except OSError:
            return False

    def write(self, path, data):
        if not self.is_ours:
            return
        new = b"%s.%s" % (path, os.urandom(8).hex().encode())
        try:
            with open(new, "xb") as file:
                file.write(data)
            os.rename(new, path)
        except OSError:
            try:
                os.unlink(new)
            except OSError:
                pass

    def remember(self, kind, words, text):
        name = named(words)
        data = b"%d\n%s%s" % (len(name), name, text)
        self.write(self.path(kind, *words), data + sum_of(data))

    def remembered(self, kind, words):
        """What was remembered under just these words, or nothing."""
        name = named(words)
        stored = read_file(b"%s/%s_%s" % (self.folder, kind, entry_digest(name).hex().encode())) if self.is_ours else None
        if not stored or sum_of(stored[0][:-SUM]) != stored[0][-SUM:]:
            return b""
        head = b"%d\n%s" % (len(name), name)
        return stored[0][len(head) : -SUM] if stored[0].startswith(head) else b""

    def say_once(self, text):
        """Says something that each start would say, once in a while. (Starts at the same time may each say it.)"""
        path = self.path(b"said", text)
        if not self.is_recent(path, SAID_AGAIN):
            self.write(path, text)
            say(text)

    def answers(self, folder):
        """Whether a folder answers: a process of its own asks it, since what hangs there can't be ended."""
        away = self.path(b"away", folder)
        if self.is_recent(away, AWAY):
            return False
        ended, child = ask_folder(folder)
        import select

        waiting = select.poll()
        waiting.register(ended, select.POLLIN)
        has_answered = bool(waiting.poll(ANSWERS_WITHIN * 1000))
        os.close(ended)
        if has_answered:
            os.waitpid(child, 0)
            if os.path.lexists(away):
                os.unlink(away)
            return True
        # (it is somebody else's child once this program has ended)
        os.kill(child, 9)
        self.write(away, folder)
        self.say_once(b"%s didn't answer within %d s, and counts as missing for %d s" % (folder, ANSWERS_WITHIN, AWAY))
        return False


def ask_folder(folder):
    """Has a process ask the folder for the file of its limit: a pipe whose end says that it has, and the process. The other streams are
    let go, so that nobody waits for what hangs. (A fork of the interpreter takes twice the time of this start of sh.)"""
    ended, ends = os.pipe()
    streams = [(os.POSIX_SPAWN_DUP2, ends, 1), (os.POSIX_SPAWN_CLOSE, 0), (os.POSIX_SPAWN_CLOSE, 2)]
    try:
        return ended, os.posix_spawn(b"/bin/sh", [b"sh", b"-c", b'read -r line <"$0"', folder + b"/limit"], os.environb, file_actions=streams)
    finally:
        os.close(ends)


def say(text):
    try:
        os.write(2, b"over_cache: %s\n" % text)
    except OSError:
        pass
