"""What the tests share that have the program build with GHDL over a cache: clones of a project, and a ghdl that notes its starts."""

import os, shutil, subprocess
from cache_places import WRAPPERS, write_script
from trial import run, write

GHDL = shutil.which("ghdl-mcode") or shutil.which("ghdl")
NAMES = ("ghdl_analyse", "ghdl_bench")


class Team:
    """A cache, and a ghdl that notes its starts, for all clones of one test."""

    def __init__(self, name, **settings):
        self.folder = os.path.abspath(name)
        for folder in self.folder, self.path("tmp"), self.path("links"), self.path("bin"):
            os.mkdir(folder)
        self.put_ghdl("")
        self.link(WRAPPERS)
        self.settings = settings

    def path(self, *names):
        return os.path.join(self.folder, *names)

    def put_ghdl(self, comment):
        write_script(self.path("bin", "ghdl"), f'#!/bin/sh\n# {comment}\necho "$1" >>{self.path("starts")}\nexec {GHDL} "$@"\n')

    def link(self, wrappers):
        """Has the links lead to the cache of these wrappers, which the commands behind it are too."""
        self.wrappers = wrappers
        for name in NAMES:
            link = self.path("links", name)
            if os.path.lexists(link):
                os.unlink(link)
            os.symlink(os.path.join(wrappers, "over_cache"), link)

    def environment(self, cached=True, between=(), **settings):
        folders = [*([self.path("links")] if cached else []), *between, self.path("bin"), self.wrappers, os.environ["PATH"]]
        given = {**os.environ, "PATH": os.pathsep.join(folders), "TMPDIR": self.path("tmp"), "OVER_CACHE": self.path("cache"),
                 **self.settings, **settings}
        return {name: value for name, value in given.items() if value is not None}

    def starts(self, word="-a"):
        """How many times GHDL was started with this first word since this was asked last."""
        if not os.path.exists(self.path("starts")):
            return 0
        with open(self.path("starts")) as file:
            found = file.read().split()
        os.unlink(self.path("starts"))
        return found.count(word)

    def clone(self, name, files):
        """A clone with these files."""
        folder = self.path(name)
        os.makedirs(folder)
        write(folder, files)
        return folder

    def build(self, folder, starts, *words, status=0, counted="-a", **settings):
        """Runs the program in a clone; gives its text. GHDL has to be started this number of times."""
        found = run(folder, *(words or ("--compile", "-p", "4")), env=self.environment(**settings))
        count = self.starts(counted)
        assert found[0] == status and not found[2], f"{folder}: it is {found}"
        assert count == starts, f"{folder}: GHDL was started {count} times in place of {starts}: {found[1].decode()}"
        return found[1]


def forget(folder):
    shutil.rmtree(os.path.join(folder, "vunit_out"))


def ghdl_by_hand(folder, *words):
    subprocess.run([GHDL, *words], cwd=folder, check=True)
