"""A folder in TMPDIR for one run of a tool. A process beside the tool removes it, whatever ends the tool, and ends the program that
the tool runs where the tool is killed."""

import os, shutil, signal, tempfile

ENDING = (signal.SIGINT, signal.SIGTERM, signal.SIGHUP)


class ToolFolder:
    """The folder, as a path and for a `with`."""

    def __init__(self, name):
        self.path = tempfile.mkdtemp(prefix=f"{name}_")
        self.told, self.tells = os.pipe()
        if os.fork() == 0:
            os.close(self.tells)
            self.watch()
        os.close(self.told)

    def __fspath__(self):
        return self.path

    def __enter__(self):
        return self

    def __exit__(self, *_):
        self.leave()

    def watch(self):
        """Waits for the end of the tool, and never returns."""
        try:
            os.setsid()
            nothing = os.open(os.devnull, os.O_RDWR)
            for number in (0, 1, 2):
                os.dup2(nothing, number)
            for number in ENDING:
                signal.signal(number, signal.SIG_IGN)
            told = b""
            while part := os.read(self.told, 64):
                told += part
            *_, last, _ = [b"", *told.split(b"\n")]
            if last.isdigit():
                os.kill(int(last), signal.SIGTERM)
            shutil.rmtree(self.path, ignore_errors=True)
        finally:
            os._exit(0)

    def watch_over(self, process):
        """Has this process be ended with the tool."""
        os.write(self.tells, b"%d\n" % process)

    def leave(self):
        """Removes the folder: the process has ended."""
        os.write(self.tells, b"ended\n")
        shutil.rmtree(self.path, ignore_errors=True)
        os.close(self.tells)
