"""What the tests of wrappers/over_cache share: a cache before a compiler that is a script, starts over them, and a look at
leftovers."""

import hashlib, os, shutil, subprocess
from compile_requests import fields

TOP = os.environ["TOP"]
# (a copy in which over_cache_hit was built, or wasn't)
WRAPPERS = os.environ.get("CACHE_WRAPPERS", os.path.join(TOP, "wrappers"))
HIT = "over_cache_hit"
# What gives no key doesn't begin. The artefact is the sum of the request and of the words, so that each answer can be told from every other. Each start is noted.
NO_KEY = '#!/bin/sh\n[ "$1" != --cache-key ] || exit 2\n'
COMPILER = NO_KEY + """echo start >>"$PLACE/starts"
{ printf '%s\\n' "$@"; cat; } | sha256sum
"""


def write_script(path, text):
    with open(path, "w") as file:
        file.write(text)
    os.chmod(path, 0o755)


def artefact_of(data, words=()):
    """What the compiler gives, worked out without it."""
    return hashlib.sha256("".join(word + "\n" for word in words or [""]).encode() + data).hexdigest().encode() + b"  -\n"


def request(number, count=3, library=b"lib"):
    """A compile request over a number of files, some with long texts and some with short ones."""
    used = [(library, b"d%d.vhd" % at, b"artefact %d " % at * (5 + 400 * (at % 2))) for at in range(count)]
    return b"".join(fields(library, b"f%d.vhd" % number, b"source %d\n" % number * 100, used))


class CachePlace:
    """A folder with a compiler `made`, a link of its name to over_cache, a cache and a TMPDIR."""

    def __init__(self, name, compiler=COMPILER, wrappers=WRAPPERS, **settings):
        self.folder = os.path.abspath(name)
        self.cache, self.tmp = self.path("cache"), self.path("tmp")
        for folder in self.folder, self.tmp, self.path("bin"), self.path("links"):
            os.mkdir(folder)
        write_script(self.path("bin", "made"), compiler)
        os.symlink(os.path.join(wrappers, "over_cache"), self.path("links", "made"))
        path = os.pathsep.join([self.path("links"), self.path("bin"), wrappers, os.environ["PATH"]])
        self.environment = {**os.environ, "PATH": path, "TMPDIR": self.tmp, "PLACE": self.folder, "OVER_CACHE": self.cache,
                            "OVER_CACHE_KEY": "1", **settings}
        self.wrappers = wrappers

    def path(self, *names):
        return os.path.join(self.folder, *names)

    def given(self, settings):
        return {name: value for name, value in {**self.environment, **settings}.items() if value is not None}

    def run(self, data, words=(), name="made", seconds=120, user=None, group=None, **settings):
        """Code, standard output and standard error of a start over this request."""
        more = {"user": user, "group": group, "extra_groups": [], "umask": 0o077} if user is not None else {}
        ran = subprocess.run([self.path("links", name), *words], input=data, capture_output=True, cwd=self.folder,
                             env=self.given(settings), timeout=seconds, **more)
        return ran.returncode, ran.stdout, ran.stderr

    def tool(self, *words, **settings):
        ran = subprocess.run([os.path.join(self.wrappers, "over_cache"), *words], capture_output=True, cwd=self.folder,
                             env=self.given(settings), timeout=120)
        return ran.returncode, ran.stdout, ran.stderr

    def starts(self):
        """How many times the compiler was started since this was asked last."""
        path = self.path("starts")
        if not os.path.exists(path):
            return 0
        with open(path) as file:
            count = len(file.readlines())
        os.unlink(path)
        return count

    def check(self, data, starts, words=(), error=b"", **settings):
        """Has the compiler's own answer, and that many starts of it."""
        found = self.run(data, words, **settings)
        assert found == (0, artefact_of(data, words), error), f"{self.folder}: it is {found}"
        count = self.starts()
        assert count == starts, f"{self.folder}: {count} starts in place of {starts}"

    def files(self, ending=""):
        return sorted(os.path.join(folder, name) for folder, _, names in os.walk(self.cache) for name in names if name.endswith(ending))

    def check_nothing_is_left(self):
        left = [name for name in os.listdir(self.tmp) if not name.startswith("over_cache_") or len(name) > 20]
        assert not left, f"{self.folder}: it left {left}"
        assert not [path for path in self.files() if "/new-" in path], f"{self.folder}: files without an end are left"

    def processes(self):
        """The processes of this place, by the place in their environment."""
        mark, found = b"PLACE=" + os.fsencode(self.folder), []
        for number in filter(str.isdigit, os.listdir("/proc")):
            try:
                with open(f"/proc/{number}/environ", "rb") as file:
                    if mark in file.read().split(b"\0"):
                        found.append(int(number))
            except OSError:
                continue
        return found


def copied_wrappers(name, changes, in_c=()):
    """A copy of the wrappers with a text behind some of their modules. Where over_cache_hit was built, it is built anew, with texts of its
    source replaced."""
    shutil.copytree(WRAPPERS, name, ignore=shutil.ignore_patterns("__pycache__", HIT))
    if os.path.exists(os.path.join(WRAPPERS, HIT)):
        with open(os.path.join(name, HIT + ".c")) as file:
            text = file.read()
        for before, after in in_c:
            assert before in text, f"{before} isn't in the source"
            text = text.replace(before, after)
        with open(os.path.join(name, HIT + ".c"), "w") as file:
            file.write(text)
        subprocess.run([os.path.join(name, "over_cache"), "--build"], check=True, stdout=subprocess.DEVNULL)
    for module, text in changes.items():
        with open(os.path.join(name, module), "a") as file:
            file.write(text)
    return os.path.abspath(name)


def change(path, at=None, cut=None):
    """Damages a file: one byte of it, or its end."""
    with open(path, "rb") as file:
        data = bytearray(file.read())
    if at is not None:
        data[at] ^= 1
    os.chmod(path, 0o600)
    with open(path, "wb") as file:
        file.write(data[:cut])
