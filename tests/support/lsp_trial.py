"""What the tests of the language server share: a server over a new project, and ranges in a form that is written by hand."""

import os, shutil, time

from lsp_client import Client, Ended
from trial import PROGRAM, fail, project

SERVER = os.path.join(os.environ["TOP"], "wrappers", "vunit_lsp")
LIBRARY = '[[library]]\nname = "lib"\nfiles = ["*.vhd"]\n'
UTF_8 = {"general": {"positionEncodings": ["utf-32", "utf-8", "utf-16"]}}
ROOM = os.path.abspath("tmp")
# The warnings that built-in tools do nothing, of which lsp_buffers looks at one: they would stand in each row over these tools.
BUILT_IN = ("nothing is analysed: ", "nothing is simulated: ")


def environment(program=PROGRAM, **more):
    """What a server is started with: its folder of links is made in a folder of its own."""
    os.makedirs(ROOM, exist_ok=True)
    return {**os.environ, "VUNIT_RUN": program, "TMPDIR": ROOM, **more}


def server(folder, offers=None, options=None, env=None, **more):
    return Client([SERVER], folder, offers, options, env or environment(), **more)


def program(path, text):
    """A program of the shell that stands for vunit_run. Gives its path."""
    with open(path, "w") as file:
        file.write("#!/bin/sh\n" + text)
    os.chmod(path, 0o755)
    return os.path.abspath(path)


def ranges(diagnostics):
    """Line, first and last unit, and message of each diagnostic, in order; a range over several lines has two lines."""
    found = []
    for one in diagnostics:
        if one["message"].startswith(BUILT_IN):
            continue
        start, end = one["range"]["start"], one["range"]["end"]
        line = start["line"] if start["line"] == end["line"] else (start["line"], end["line"])
        found.append((line, start["character"], end["character"], one["message"]))
    return sorted(found, key=str)


def all_shown(client):
    found = {uri[len(client.uri("")) + 1 :]: ranges(shown) for uri, shown in client.shown.items()}
    return {path: shown for path, shown in found.items() if shown}


def expect_shown(name, client, wanted, seconds=float(os.environ.get("PATIENCE", "60"))):
    """Waits until exactly these diagnostics are shown: a dictionary from paths to lists as `ranges` gives them."""
    wanted = {path: sorted(shown, key=str) for path, shown in wanted.items()}
    if not client.wait_until(lambda: all_shown(client) == wanted, seconds):
        fail(name, f"shown is {all_shown(client)}\nand not {wanted}; errors: {client.errors[-1500:]}; said: {client.texts[-3:]}")
        return False
    return True


def leave(name, client):
    """Ends a server by the protocol: it leaves no folder and says nothing on standard error."""
    status = client.leave()
    until = time.monotonic() + 60
    while os.listdir(ROOM) and time.monotonic() < until:
        time.sleep(0.05)
    if status != 0 or os.listdir(ROOM) or client.errors:
        fail(name, f"status {status}, left {os.listdir(ROOM)}, errors {client.errors[-1500:]}")
        shutil.rmtree(ROOM, ignore_errors=True)


def try_row(name, files, wanted, offers=None, buffers=None, env=None, options=None):
    """A server over a project, with these buffers open: what it shows."""
    project("project", files)
    client = server("project", offers, options, env)
    for path, text in (buffers or {}).items():
        client.open(path, text)
    expect_shown(name, client, wanted)
    leave(name, client)
