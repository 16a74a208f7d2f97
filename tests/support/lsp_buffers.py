"""Buffers, saves, lenses and verdicts in the language server, with the compiler and the simulator that come with the program."""

import json, os, shutil, time

from lsp_trial import LIBRARY, ROOM, UTF_8, environment, expect_shown, leave, program, server
from trial import PROGRAM, end, fail, project

BENCH = """entity tb is generic (runner_cfg : string); end;
architecture a of tb is begin
  process begin
    /* 😀 */ if run("é*[1]") then
    elsif run("two") then
    -- child: fail lib.tb.two
    end if;
  end process;
end;
"""


def same(name, found, wanted):
    if found != wanted:
        fail(name, f"it is {found}\nand not {wanted}")


def linked_folder():
    """The only folder of links that is there."""
    name, = os.listdir(ROOM)
    return os.path.join(ROOM, name, "project")


def files_below(folder):
    return sorted(os.path.relpath(os.path.join(at, name), folder) for at, _, names in os.walk(folder) for name in names)


def changes(units, offers):
    """Changes of parts of a buffer, among letters of two and four bytes and ends of lines of each kind."""
    project("project", {"vunit.toml": LIBRARY, "a.vhd": "package a is\nend;\n"})
    client = server("project", offers)
    same("columns", client.answered["capabilities"]["positionEncoding"], units)
    wide = 2 if units == "utf-16" else 4
    narrow = 1 if units == "utf-16" else 2
    client.open("a.vhd", "package a is\r\nend; -- é😀\r\n-- last 😀")
    # (behind the comment's letters, which are a change by themselves, a word that begins no unit)
    client.change("a.vhd", "\r\nfoo", 2, ((1, 8 + narrow + wide), (1, 8 + narrow + wide)))
    expect_shown("a line more", client, {"a.vhd": [(2, 0, 3, "lib, a.vhd: no design unit at 30")]})
    client.change("a.vhd", "é", 3, ((1, 8), (1, 8 + narrow + wide)))
    expect_shown("other letters", client, {"a.vhd": [(2, 0, 3, "lib, a.vhd: no design unit at 26")]})
    client.change("a.vhd", "", 4, ((1, 8 + narrow), (2, 3)))
    expect_shown("one line", client, {})
    client.change("a.vhd", "\rbar\n", 5, ((2, 8 + wide), (2, 8 + wide)))
    expect_shown("at the end, which has no line feed", client, {"a.vhd": [(3, 0, 3, "lib, a.vhd: no design unit at 39")]})
    client.change("a.vhd", "entity e is", 6)
    expect_shown("all of it", client, {"a.vhd": [(0, 0, 6, "lib, a.vhd: design unit not ended at 0")]})
    client.change("a.vhd", " end;", 7, ((99, 5), (99, 7)))
    expect_shown("beyond the end", client, {})
    leave("changes", client)


def buffers_and_files():
    """What the folder of links has: buffers that aren't saved, new, renamed and removed files, and folders."""
    files = {"vunit.toml": LIBRARY.replace("*.vhd", "**/*.vhd"), "a.vhd": "package a is\nend;\n", "sub/b.vhd": "package b is\nend;\n",
             ".hidden/x": "x", "vunit_out/x": "x"}
    project("project", files)
    os.symlink("a.vhd", "project/link.vhd")
    client = server("project")
    wanted = "lib.a stands in lib, a.vhd and lib, link.vhd"
    expect_shown("a link", client, {"a.vhd": [(0, 8, 9, wanted)], "link.vhd": [(0, 8, 9, wanted)]})
    folder = linked_folder()
    os.unlink("project/link.vhd")
    expect_shown("the link is gone", client, {})
    same("files", files_below(folder), ["a.vhd", "sub/b.vhd", "vunit.toml"])
    same("links", [os.path.islink(os.path.join(folder, name)) for name in ("a.vhd", "sub/b.vhd", "vunit.toml", ".hidden")], [True] * 4)
    os.makedirs("project/more/deep")
    with open("project/more/deep/c.vhd", "w") as file:
        file.write("foo")
    expect_shown("a new file", client, {"more/deep/c.vhd": [(0, 0, 3, "lib, more/deep/c.vhd: no design unit at 0")]})
    os.rename("project/more", "project/other")
    expect_shown("a renamed folder", client, {"other/deep/c.vhd": [(0, 0, 3, "lib, other/deep/c.vhd: no design unit at 0")]})
    client.open("other/deep/c.vhd", "package c is end;")
    expect_shown("a buffer over it", client, {})
    shutil.rmtree("project/other")
    client.change("other/deep/c.vhd", "bar", 2)
    expect_shown("a buffer whose file is gone", client, {"other/deep/c.vhd": [(0, 0, 3, "lib, other/deep/c.vhd: no design unit at 0")]})
    client.notify("textDocument/didClose", {"textDocument": {"uri": client.uri("other/deep/c.vhd")}})
    expect_shown("its buffer is closed", client, {})
    client.open("new é.vhd", "foo")
    expect_shown("a buffer without a file", client, {"new%20%C3%A9.vhd": [(0, 0, 3, "lib, new é.vhd: no design unit at 0")]})
    same("its file", os.path.islink(os.path.join(folder, "new é.vhd")), False)
    for uri in ("untitled:x.vhd", "file://elsewhere/x.vhd", "file:///x.vhd", client.uri("vunit_out/x.vhd"), client.uri(""), "", "%", "file:", "//["):
        client.notify("textDocument/didOpen", {"textDocument": {"uri": uri, "languageId": "vhdl", "version": 1, "text": "foo"}})
        same(uri, client.request("textDocument/codeLens", {"textDocument": {"uri": uri}}), [])
    client.change("new é.vhd", "package n is end;", 2)
    expect_shown("files elsewhere", client, {})
    same("the project", files_below("project"), [".hidden/x", "a.vhd", "sub/b.vhd", "vunit.toml", "vunit_out/x"])
    leave("buffers and files", client)


def hidden_files():
    """A list may name a file in a folder that begins with a dot, which is linked as a whole until a buffer is in it."""
    project("project", {"vunit.csv": "lib,.deep/er/a.vhd\nlib,.deep/b.vhd\n", ".deep/er/a.vhd": "package a is end;", ".deep/b.vhd": "package b is end;"})
    client = server("project")
    client.open(".deep/er/a.vhd", "foo")
    expect_shown("a buffer in a hidden folder", client, {".deep/er/a.vhd": [(0, 0, 3, "lib, .deep/er/a.vhd: no design unit at 0")]})
    folder = linked_folder()
    same("links", [os.path.islink(os.path.join(folder, name)) for name in (".deep", ".deep/er", ".deep/er/a.vhd", ".deep/b.vhd")],
         [False, False, False, True])
    client.notify("textDocument/didClose", {"textDocument": {"uri": client.uri(".deep/er/a.vhd")}})
    expect_shown("it is closed", client, {})
    same("the link", os.path.islink(os.path.join(folder, ".deep")), True)
    leave("hidden files", client)


def no_project():
    """A folder without a project file may be any folder: nothing of it is linked and nothing is made there, until there is such a file."""
    project("project", {"a.vhd": "package a is\nend;\n", "deep/er/b.vhd": "package b is\nend;\n"})
    client = server("project")
    refused = {"vunit.toml": [(0, 0, 0, "no vunit.toml and no vunit.csv")]}
    expect_shown("no project", client, refused)
    folder = linked_folder()
    client.open("a.vhd", "package a is\nend;\n")
    client.save("a.vhd")
    client.request("workspace/executeCommand", {"command": "vunit_run.compile"})
    same("what is told", client.texts[-1], ("window/showMessage", "no vunit.toml and no vunit.csv"))
    same("files of no project", (files_below(folder), sorted(os.listdir("project"))), ([], ["a.vhd", "deep"]))
    with open("project/vunit.toml", "w") as file:
        file.write(LIBRARY.replace("*.vhd", "**/*.vhd"))
    expect_shown("a project", client, {})
    same("files of a project", files_below(folder), ["a.vhd", "deep/er/b.vhd", "vunit.toml"])
    with open("project/deep/er/b.vhd", "w") as file:
        file.write("foo")
    expect_shown("a file of it", client, {"deep/er/b.vhd": [(0, 0, 3, "lib, deep/er/b.vhd: no design unit at 0")]})
    os.unlink("project/vunit.toml")
    expect_shown("no project any more", client, refused)
    same("files of no project any more", files_below(folder), [])
    leave("no project", client)


def latin_1():
    """A file in Latin-1: an editor shows its letters, and the buffer is the file."""
    project("project", {"vunit.toml": LIBRARY, "a.vhd": b"-- \xe9\npackage a is\nend;\n"})
    client = server("project")
    client.open("a.vhd", "-- é\npackage a is\nend;\n")
    client.change("a.vhd", "é foo", 2, ((0, 4), (0, 4)))
    client.change("a.vhd", "é bar", 3, ((3, 0), (3, 0)))
    expect_shown("Latin-1", client, {"a.vhd": [(3, 0, 1, "lib, a.vhd: no design unit at 28")]})
    client.change("a.vhd", "", 4, ((3, 0), (3, 5)))
    client.change("a.vhd", "😀", 5, ((0, 4), (0, 4)))
    client.change("a.vhd", "bar", 6, ((3, 0), (3, 0)))
    expect_shown("no Latin-1 any more", client, {"a.vhd": [(3, 0, 3, "lib, a.vhd: no design unit at 34")]})
    leave("Latin-1", client)


def saves():
    """Compiles at a save, unless that isn't wanted: what the compiler says of a file, and warnings of the program."""
    text = "use work.b.all;\nuse work.all;\npackage a is\nend;\n"
    project("project", {"vunit.toml": LIBRARY, "a.vhd": text, "b.vhd": "package b is\nend;\n"})
    client = server("project", options={"compileOnSave": False, "numThreads": 2})
    client.save("a.vhd")
    client.wait_until(lambda: False, 1)
    same("no compilation", os.path.exists("project/vunit_out"), False)
    client.notify("workspace/didChangeConfiguration", {"settings": {"vunit_run": {"compileOnSave": True}}})
    client.save("a.vhd")
    warning = (1, 4, 12, "lib, a.vhd: use of lib.all gives no dependency")
    expect_shown("a warning", client, {"a.vhd": [warning]})
    # an edit moves the findings, and a check alone doesn't take them back
    client.open("a.vhd", text)
    client.change("a.vhd", "-- \n  ", 2, ((1, 0), (1, 0)))
    client.change("a.vhd", "foo", 3, ((5, 0), (5, 0)))
    expect_shown("a moved warning", client, {"a.vhd": [(2, 6, 14, warning[3]), (5, 0, 3, "lib, a.vhd: no design unit at 54")]})
    leave("saves", client)
    same("the editor's own store", sorted(os.listdir("project/vunit_out")), ["lsp"])


def tests():
    """Lenses, a case, a bench, verdicts at names, and edits after that."""
    project("project", {"vunit.toml": LIBRARY, "tb.vhd": BENCH, "all.vhd": BENCH.split("architecture")[0].replace("tb", "t2") +
                        "architecture a of t2 is begin end;\n"})
    client = server("project", {"workspace": {"codeLens": {"refreshSupport": True}}})
    client.wait_until(lambda: any(one["method"] == "workspace/codeLens/refresh" for one in client.asked))
    lenses = client.request("textDocument/codeLens", {"textDocument": {"uri": client.uri("tb.vhd")}})
    wanted = [(3, 21, 26, "run lib.tb", ["lib.tb"]), (3, 21, 26, "run", ["lib.tb.é*[1]"]), (4, 15, 18, "run", ["lib.tb.two"])]
    same("lenses", [(one["range"]["start"]["line"], one["range"]["start"]["character"], one["range"]["end"]["character"],
                     one["command"]["title"], one["command"]["arguments"]) for one in lenses], wanted)
    lenses = client.request("textDocument/codeLens", {"textDocument": {"uri": client.uri("all.vhd")}})
    same("the lens of a bench without cases", [(one["range"]["start"]["character"], one["command"]["arguments"]) for one in lenses],
         [(7, ["lib.t2.all"])])
    run = lambda *names: client.request("workspace/executeCommand", {"command": "vunit_run.test", "arguments": list(names)})
    same("a command", run("lib.tb.two"), None)
    failed = (4, 15, 18, "fail lib.tb.two\nfailed lib.tb.two")
    expect_shown("a case that fails", client, {"tb.vhd": [failed]})
    shown = [one["message"] for uri, found in client.shown.items() if uri.endswith("/vunit.toml") for one in found]
    same("a simulator that is built in", [text for text in shown if text.startswith("nothing is simulated: the simulator is")] != [], True)
    run("lib.tb.é*[1]")
    passed = (3, 21, 26, "pass lib.tb.é*[1]")
    expect_shown("a case that passes", client, {"tb.vhd": [failed, passed]})
    same("severities", sorted(one["severity"] for one in client.diagnostics("tb.vhd")), [1, 4])
    client.open("tb.vhd", BENCH)
    client.change("tb.vhd", "\n", 2, ((0, 0), (0, 0)))
    expect_shown("no verdict vouches for a changed file", client, {"tb.vhd": [(5, *failed[1:])]})
    client.wait_until(lambda: len([one for one in client.asked if one["method"] == "workspace/codeLens/refresh"]) > 1)
    client.change("tb.vhd", "", 3, ((6, 4), (6, 28)))
    run("lib.tb")
    expect_shown("a buffer that isn't saved", client, {"tb.vhd": [(4, *passed[1:]), (5, 15, 18, "pass lib.tb.two")]})
    run("lib.t2.all")
    expect_shown("another bench", client, {"tb.vhd": [(4, *passed[1:]), (5, 15, 18, "pass lib.tb.two")], "all.vhd": [(0, 7, 9, "pass lib.t2.all")]})
    client.change("tb.vhd", "x", 4, ((0, 0), (0, 0)))
    expect_shown("a refusal", client, {"tb.vhd": [(0, 0, 1, "lib, tb.vhd: no design unit at 0")]})
    same("no lens", client.request("textDocument/codeLens", {"textDocument": {"uri": client.uri("tb.vhd")}}), [])
    run("lib.tb.two")
    refusal = "vunit_run: lib, tb.vhd: no design unit at 0\ntb.vhd:1:1: lib, tb.vhd: no design unit at 0"
    same("a refused run", client.wait_until(lambda: ("window/showMessage", refusal) in client.texts), True)
    client.change("tb.vhd", "", 5, ((0, 0), (0, 1)))
    run("lib.no")
    none = "window/showMessage", "no test was run, since none has this name"
    same("no such test", client.wait_until(lambda: none in client.texts), True)
    for command, arguments in (("vunit_run.test", []), ("vunit_run.test", ["--clean"]), ("vunit_run.test", [3]), ("other", ["x"])):
        same(command, client.request("workspace/executeCommand", {"command": command, "arguments": arguments})["code"], -32602)
    leave("tests", client)


def two_editors():
    """Two servers and a run in a terminal over one project, each with a store of its own."""
    project("project", {"vunit.toml": LIBRARY, "tb.vhd": BENCH})
    clients = [server("project"), server("project")]
    for client in clients:
        client.request("workspace/executeCommand", {"command": "vunit_run.compile"})
        client.request("workspace/executeCommand", {"command": "vunit_run.test", "arguments": ["lib.tb.two"]})
    for client in clients:
        expect_shown("one of two editors", client, {"tb.vhd": [(4, 15, 18, "fail lib.tb.two\nfailed lib.tb.two")]})
    same("their stores", sorted(os.listdir("project/vunit_out")), ["lsp", "lsp_2"])
    same("the first one ends", clients[0].leave(), 0)
    leave("the second one", clients[1])


changes("utf-16", None)
changes("utf-8", UTF_8)
for rows in (buffers_and_files, hidden_files, no_project, latin_1, saves, tests, two_editors):
    rows()
end()
