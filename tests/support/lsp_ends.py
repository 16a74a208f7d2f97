"""The language server where a client, a program or a system does what it shouldn't: frames, messages, floods, kills."""

import os, random, signal, subprocess, time

from lsp_trial import LIBRARY, ROOM, SERVER, environment, expect_shown, leave, program, server
from trial import PROGRAM, end, fail, project

METHODS = ["textDocument/didOpen", "textDocument/didChange", "$/x", "workspace/didChangeConfiguration", "workspace/executeCommand",
           "textDocument/codeLens"]
FILES = {"vunit.toml": LIBRARY, "a.vhd": "package a is\nend;\n"}


def same(name, found, wanted):
    if found != wanted:
        fail(name, f"it is {found}\nand not {wanted}")


def words_of(path):
    """The words of a file, nothing if it does not exist."""
    if not os.path.exists(path):
        return []
    with open(path) as file:
        return file.read().split()


def left():
    """Leftovers of a server within a while."""
    until = time.monotonic() + 60
    while os.listdir(ROOM) and time.monotonic() < until:
        time.sleep(0.05)
    return os.listdir(ROOM)


def ends(name, client, status):
    same(f"{name}: its status", client.process.wait(60), status)
    same(f"{name}: its folder", left(), [])
    if b"Traceback" in client.errors:
        fail(name, client.errors)


def frames():
    """Frames cut anywhere, several in one write, and invalid ones."""
    client = server("project")
    whole = client.frame({"id": 7, "method": "no/such"}) + client.frame({"method": "no/such"}) + client.frame({"id": "é", "method": "no/such"})
    for at in range(len(whole)):
        client.send(whole[at : at + 1])
    for number in (7, "é"):
        same("a byte at a time", client.wait(lambda one: one.get("id") == number)["error"]["code"], -32601)
    client.send(b"content-length:  %d\r\nContent-Type: x; charset=utf-8\r\n\r\n" % len(b"[]") + b"[]" + whole)
    same("a list", client.wait(lambda one: "error" in one)["error"]["code"], -32600)
    client.wait(lambda one: one.get("id") == "é")
    leave("frames", client)
    for name, data in (("no number", b"Content-Length: x\r\n\r\n{}"), ("a negative length", b"Content-Length: -2\r\n\r\n{}"),
                       ("a huge length", b"Content-Length: 100000000\r\n\r\n"), ("a huger one", b"Content-Length: " + b"9" * 5000 + b"\r\n\r\n"),
                       ("two lengths", b"Content-Length: 2\r\nContent-Length: 3\r\n\r\n{}"), ("no length", b"Other: 2\r\n\r\n{}"),
                       ("a header without an end", b"x" * 9000), ("no colon", b"hello\r\n\r\n"), ("bytes", bytes(range(256)) * 64)):
        client = server("project")
        client.send(data)
        same(name, client.wait(lambda one: "error" in one)["error"]["code"], -32600)
        ends(name, client, 1)
    for name, data in (("a cut header", b"Content-Le"), ("a cut text", b"Content-Length: 20\r\n\r\n{"), ("nothing", b"")):
        client = server("project")
        client.send(data)
        client.end()
        ends(name, client, 1)


def messages():
    """JSON that isn't a message, methods at the wrong time, and wrong parameters: each has an answer, and the server goes
    on."""
    client = server("project")
    deep = b"[" * 100_000
    for name, text, code in (("no JSON", b"{", -32700), ("no UTF-8", b'"\xff"', -32700), ("deep", deep, -32700), ("a number", b"3", -32600),
                             ("a long number", b"1" * 5000, -32700), ("another protocol", b'{"jsonrpc":"1.0","method":"x"}', -32600),
                             ("no method", b'{"jsonrpc":"2.0"}', -32600), ("an id", b'{"jsonrpc":"2.0","id":[],"method":"x"}', -32600),
                             ("a method", b'{"jsonrpc":"2.0","id":1,"method":3}', -32600)):
        client.send(b"Content-Length: %d\r\n\r\n%s" % (len(text), text))
        same(name, client.wait(lambda one: "error" in one)["error"]["code"], code)
    same("once more", client.request("initialize", {})["code"], -32600)
    for params in (None, [], {}, {"textDocument": 3}, {"textDocument": {"uri": 3}}):
        same(f"lenses of {params}", client.request("textDocument/codeLens", params)["code"], -32602)
        for method in ("didOpen", "didChange", "didClose", "didSave"):
            client.notify(f"textDocument/{method}", params)
    client.open("a.vhd", "package a is\nend;\n")
    begin = {"line": 0, "character": 0}
    for range_ in ({"start": {**begin, "line": -1}, "end": begin}, {"start": 3}, {"start": {**begin, "line": 1}, "end": begin},
                   {"start": {"line": 1e99, "character": True}, "end": {**begin, "line": 10**30}}):
        client.notify("textDocument/didChange", {"textDocument": {"uri": client.uri("a.vhd")}, "contentChanges": [{"range": range_, "text": "x"}]})
    client.notify("textDocument/didChange", {"textDocument": {"uri": client.uri("a.vhd")}, "contentChanges": [{"text": "foo\ud800"}]})
    expect_shown("it goes on", client, {"a.vhd": [(0, 0, 3, "lib, a.vhd: no design unit at 0")]})
    client.number += 1
    client.request("shutdown", None)
    same("after its end", client.request("textDocument/codeLens", {})["code"], -32600)
    client.notify("exit", None)
    ends("messages", client, 0)
    client = server("project", begin=False)
    same("before its beginning", client.request("textDocument/codeLens", {})["code"], -32002)
    client.notify("textDocument/didOpen", {})
    client.notify("exit", None)
    ends("an exit alone", client, 1)


def random_texts():
    """Bytes and messages by chance, from seeds: an answer or the end, and never a word of Python to the client."""
    for seed in range(12):
        chance = random.Random(seed)
        client = server("project")
        for _ in range(100):
            uri = client.uri("a.vhd")
            value = chance.choice([None, [], {}, "", "file:///x", 3, -1, True, {"uri": uri}, {"uri": uri, "text": "x"}])
            client.send(client.frame({"method": chance.choice(METHODS), "params": {chance.choice(["textDocument", "settings"]): value},
                                      **({"id": chance.randrange(9)} if chance.random() < 0.5 else {})}))
        try:
            client.send(chance.randbytes(200))
        except BrokenPipeError:
            pass
        client.end()
        ends(f"seed {seed}", client, 1)


def floods():
    """200 changes in a second make at most 8 runs, the last of which is of the newest state; a client that reads nothing."""
    counted = program("counted", f'echo x >>"$COUNT"; exec {PROGRAM} "$@"\n')
    client = server("project", env=environment(counted, COUNT=os.path.abspath("count")))
    client.open("a.vhd", "foo")
    expect_shown("before", client, {"a.vhd": [(0, 0, 3, "lib, a.vhd: no design unit at 0")]})
    os.unlink("count")
    began = time.monotonic()
    for number in range(200):
        client.change("a.vhd", "x" * (number % 7 + 1), number + 2)
        time.sleep(max(0, began + number / 200 - time.monotonic()))
    took = time.monotonic() - began
    client.change("a.vhd", "entity e is", 999)
    expect_shown("after a flood", client, {"a.vhd": [(0, 0, 6, "lib, a.vhd: design unit not ended at 0")]})
    runs = len(words_of("count"))
    # (a machine with much to do makes more than a second of it)
    if runs > 8 * max(1, took):
        fail("200 changes", f"they made {runs} runs in {took:.2f} s")
    leave("a flood", client)
    silent = subprocess.Popen([SERVER], stdin=subprocess.PIPE, stdout=subprocess.PIPE, cwd="project", env=environment())
    request = client.frame({"id": 1, "method": "initialize", "params": {"capabilities": {}}})
    request += client.frame({"id": "x" * 1000, "method": "x"}) * 20000
    os.set_blocking(silent.stdin.fileno(), False)
    sent, until = 0, time.monotonic() + 3
    while time.monotonic() < until and sent < len(request):
        try:
            sent += os.write(silent.stdin.fileno(), request[sent : sent + 65536])
        except BlockingIOError:
            time.sleep(0.05)
    if sent == len(request):
        fail("a client that reads nothing", "all that it sends is taken")
    silent.stdin.close()
    silent.stdout.close()
    same("its status", silent.wait(60), 1)
    same("what is left of it", left(), [])


def gone():
    """A client that goes away, and a server that is ended: no process and no folder stays."""
    slow = program("slow", 'echo $$ >>"$PIDS"; sleep 300 & echo $! >>"$PIDS"; wait\n')
    for name, number in (("a client that goes away", None), ("SIGTERM", signal.SIGTERM), ("SIGINT", signal.SIGINT), ("SIGKILL", signal.SIGKILL)):
        pids = os.path.abspath("pids")
        client = server("project", env=environment(slow, PIDS=pids))
        client.wait_until(lambda: len(words_of(pids)) == 2)
        if number:
            client.process.send_signal(number)
        client.end()
        same(f"{name}: its folder", left(), [])
        running = [int(word) for word in words_of(pids)]
        os.unlink(pids)
        # (of a server that is killed the system ends the program, which takes its children along in its own way)
        if number == signal.SIGKILL:
            os.kill(running.pop(), signal.SIGTERM)
        until = time.monotonic() + 60
        while any(map(is_running, running)) and time.monotonic() < until:
            time.sleep(0.05)
        same(f"{name}: processes", list(filter(is_running, running)), [])


def is_running(pid):
    """Whether there is such a process that hasn't ended: one that nobody waits for stays as a number."""
    try:
        with open(f"/proc/{pid}/stat") as file:
            return file.read().rpartition(")")[2].split()[0] != "Z"
    except OSError:
        return False


def programs():
    """Programs that can't be started, are ended or find a fault outside: shown, with pauses that grow; and one that is built first."""
    for name, text, shown in (
        ("3", "echo 'vunit_run: fault of tree' >&2; echo 'vunit_run: x: read: No' >&2; exit 3", "vunit_run: fault of tree\nvunit_run: x: read: No"),
        ("4", "echo 'vunit_run: out of memory' >&2; exit 4", "vunit_run: out of memory"),
        ("a signal", "kill -9 $$", "{} was ended by signal 9"),
        ("nothing", "exit 77", "{} ended with status 77"),
        ("usage", "echo 'usage: vunit_run [-l]'; exit 2", "usage: vunit_run [-l]"),
    ):
        said = program("said", f'date +%s.%N >>"$TIMES"; {text}\n')
        client = server("project", env=environment(said, TIMES=os.path.abspath("times")))
        wanted = shown.format(said)
        expect_shown(name, client, {"vunit.toml": [(0, 0, 11, wanted)]})
        pauses = [0.9, 1.9, 3.9] if name == "3" else [0.9, 1.9]
        client.wait_until(lambda: len(words_of("times")) > len(pauses), 60)
        times = [float(word) for word in words_of("times")]
        if any(after - before < pause for before, after, pause in zip(times, times[1:], pauses)):
            fail(f"{name}: pauses", times)
        same(f"{name}: it is said once", [text for method, text in client.texts if method == "window/showMessage"], [wanted])
        os.unlink("times")
        leave(name, client)
    client = server("project", env=environment("/no/such"))
    expect_shown("no program", client, {"vunit.toml": [(0, 0, 11, "/no/such can't be started: No such file or directory")]})
    leave("no program", client)
    killed = program("killed", f'[ ! -e kill ] || kill -9 $$; exec {PROGRAM} "$@"\n')
    open("project/kill", "w").close()
    client = server("project", env=environment(killed))
    expect_shown("a killed program", client, {"vunit.toml": [(0, 0, 11, f"{killed} was ended by signal 9")]})
    os.unlink("project/kill")
    expect_shown("the next one", client, {})
    leave("a killed program", client)


def first_starts():
    """A program that is built at a first start: its progress is shown, and no change ends it."""
    is_built = os.path.abspath("is_built")
    built = program("built", f"""if [ ! -e {is_built} ]; then
echo 'building ..' >&2; sleep 1.5; echo 'building: 50 of 100' >&2; sleep 1.5; : >{is_built}; fi; exec {PROGRAM} "$@"\n""")
    for offers, wanted in (({"window": {"workDoneProgress": True}}, "$/progress"), ({}, "window/logMessage")):
        client = server("project", offers, env=environment(built))
        for number in range(10):
            client.open("a.vhd", "foo") if number == 0 else client.change("a.vhd", "foo" + "x" * number, number + 1)
            time.sleep(0.2)
        expect_shown("a program that is built", client, {"a.vhd": [(0, 0, 12, "lib, a.vhd: no design unit at 0")]})
        said = [one["params"] for one in client.messages if one.get("method") == wanted]
        words = [one.get("message", one.get("value", {}).get("message")) for one in said]
        if ("building: 50 of 100" if offers else "vunit_run: building: 50 of 100") not in words:
            fail("its progress", words)
        kinds = [one["value"]["kind"] for one in said if offers]
        same("its beginning and its end", kinds[:1] + kinds[-1:], ["begin", "end"] if offers else [])
        leave("a program that is built", client)
        os.unlink(is_built)


project("project", FILES)
for rows in (frames, messages, random_texts, floods, gone, programs, first_starts):
    rows()
end()
