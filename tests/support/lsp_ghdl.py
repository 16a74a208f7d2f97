"""GHDL's messages in the language server at a save, each at its line, and a check that fails in a simulation at its case."""

import os, shutil

from lsp_trial import environment, expect_shown, leave, ranges, server
from trial import end, fail

WRAPPERS = os.path.join(os.environ["TOP"], "wrappers")
GIVEN = environment(PATH=WRAPPERS + ":" + os.environ["PATH"])


def copy(example):
    shutil.rmtree("project", ignore_errors=True)
    shutil.copytree(os.path.join(os.environ["TOP"], "examples", example), "project", ignore=shutil.ignore_patterns("vunit_out"))


def text_of(path):
    with open(os.path.join("project", path), newline="") as file:
        return file.read()


def messages():
    """In a buffer that isn't saved: tabulators, letters of two bytes, CR LF, two messages of one file and one of another."""
    copy("ghdl_counter")
    client = server("project", env=GIVEN)
    last = "  same <= built = meant;\n"
    board = text_of("board/board.vhd").replace(last, '\tgone_a <= 1; -- é\r\n  \tgone_b <= "é" ; gone_c <= 1;\n' + last)
    line = board[: board.index("\tgone_a")].count("\n")
    client.open("board/board.vhd", board)
    rtl = text_of("counter/counter_rtl.vhd").replace("next_of(now)", "next_of(later)")
    at = rtl[: rtl.index("later")]
    client.open("counter/counter_rtl.vhd", rtl)
    client.save("board/board.vhd")
    place = at.count("\n"), len(at) - at.rindex("\n") - 1
    refused = (place[0], place[1], place[1] + 5, 'no declaration for "later"')
    # (board needs counter_rtl, so that it is skipped)
    expect_shown("GHDL's message", client, {"counter/counter_rtl.vhd": [refused]}, 90)
    client.change("counter/counter_rtl.vhd", rtl.replace("later", "now"), 2)
    client.save("counter/counter_rtl.vhd")
    expect_shown("GHDL's messages", client, {"board/board.vhd": [
        (line, 1, 7, 'no declaration for "gone_a"'), (line + 1, 3, 9, 'no declaration for "gone_b"'),
        (line + 1, 19, 25, 'no declaration for "gone_c"')]}, 90)
    client.change("board/board.vhd", text_of("board/board.vhd"), 2)
    client.save("board/board.vhd")
    expect_shown("mended", client, {}, 90)
    leave("GHDL's messages", client)


def verdicts():
    """A check that fails: the verdict at the case, and what the simulation printed."""
    copy("ghdl_benches")
    client = server("project", env=GIVEN)
    bench = "tb/tb_timer.vhd"
    client.open(bench, text_of(bench))
    lenses = []
    client.wait_until(lambda: lenses.extend(client.request("textDocument/codeLens", {"textDocument": {"uri": client.uri(bench)}})) or lenses)
    client.request("workspace/executeCommand", {"command": "vunit_run.test", "arguments": lenses[0]["command"]["arguments"]})
    text, wanted = text_of(bench), {}
    for one in lenses:
        name = one["command"]["arguments"][0].split(".", 2)[2:]
        if name:
            before = text[: text.index(f'"{name[0]}"') + 1]
            start = len(before) - before.rindex("\n") - 1
            wanted[one["command"]["arguments"][0]] = before.count("\n"), start, start + len(name[0])
    client.wait_until(lambda: len(client.diagnostics(bench)) == len(wanted), 120)
    found = {one["code"]: (one["severity"], one["message"]) for one in client.diagnostics(bench)}
    places = {one[3].partition("\n")[0].partition(" ")[2]: one[:3] for one in ranges(client.diagnostics(bench))}
    if places != wanted:
        fail("places of verdicts", f"{places}\nand not {wanted}")
    failed = {name: message for name, (severity, message) in found.items() if severity == 1}
    if not failed or not all(message.startswith(f"fail {name}\n") and "tb/tb_timer.vhd:" in message for name, message in failed.items()):
        fail("verdicts", found)
    leave("verdicts", client)


messages()
verdicts()
end()
