"""What the tests of wrappers/over_engine share: engines that are scripts, starts of the wrapper over them, and a look at
leftovers."""

import os, subprocess, sys, time
from concurrent.futures import ThreadPoolExecutor

TOP = os.environ["TOP"]
WRAPPERS = os.path.join(TOP, "wrappers")
WRAPPER = os.path.join(WRAPPERS, "over_engine")


def write_script(path, text):
    with open(path, "w") as file:
        file.write("#!/bin/sh\n" + text)
    os.chmod(path, 0o755)


class Place:
    """A folder of one row: its engine, its commands in `bin`, and what is in its TMPDIR, by which its processes are known."""

    def __init__(self, name, engine, commands=(), **settings):
        # (the words of an engine end at blanks)
        self.folder = os.path.abspath(name.replace(" ", "_"))
        self.tmp = os.path.join(self.folder, "tmp")
        for folder in self.folder, self.tmp, self.path("bin"):
            os.mkdir(folder)
        for command, text in dict(commands).items():
            write_script(self.path("bin", command), text)
        write_script(self.path("engine"), engine)
        path = os.pathsep.join([self.path("bin"), WRAPPERS, os.environ["PATH"]])
        self.environment = {**os.environ, "PATH": path, "TMPDIR": self.tmp, "PLACE": self.folder,
                            "OVER_ENGINE": self.path("engine"), **settings}

    def path(self, *names):
        return os.path.join(self.folder, *names)

    def run(self, words, data=b"", program=(WRAPPER,)):
        """Code, standard output, standard error and seconds of the wrapper, or a link to it, over this request."""
        begun = time.monotonic()
        try:
            ran = subprocess.run([*program, *words], input=data, capture_output=True, cwd=self.folder, env=self.environment,
                                 timeout=90)
        except subprocess.TimeoutExpired as late:
            return None, late.stdout, f"{words} in {self.folder} didn't end: {late.stderr}".encode(), 90
        return ran.returncode, ran.stdout, ran.stderr, time.monotonic() - begun

    def start(self, words, data=b"", **settings):
        child = subprocess.Popen([WRAPPER, *words], stdin=subprocess.PIPE, stdout=subprocess.PIPE,
                                 stderr=subprocess.DEVNULL, cwd=self.folder, env=self.environment, **settings)
        try:
            child.stdin.write(data)
            child.stdin.close()
        except BrokenPipeError:
            pass
        return child

    def left(self):
        """What there is of files in TMPDIR and of processes that were started with it."""
        mark, found = b"TMPDIR=" + os.fsencode(self.tmp), os.listdir(self.tmp)
        for number in filter(str.isdigit, os.listdir("/proc")):
            try:
                with open(f"/proc/{number}/environ", "rb") as file:
                    is_ours = mark in file.read().split(b"\0")
                with open(f"/proc/{number}/cmdline", "rb") as file:
                    found += [file.read()] if is_ours else []
            except OSError:
                continue
        return found

    def seconds_until_nothing_is_left(self):
        begun = time.monotonic()
        while left := self.left():
            assert time.monotonic() < begun + 20, f"{self.folder}: left behind: {left}"
            time.sleep(0.01)
        return time.monotonic() - begun


def all_at_once(works, at_most=16):
    """Runs these functions beside each other; ends the test with what those said that failed, after all have ended."""
    with ThreadPoolExecutor(at_most) as pool:
        failed = [future.exception() for future in [pool.submit(work) for work in works] if future.exception()]
    if failed:
        sys.exit("\n".join(f"{type(fault).__name__}: {fault}"[:2000] for fault in failed))
