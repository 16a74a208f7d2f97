"""Each refusal and warning of the manual as the language server shows it: its file and its range, worked out by hand. Lines and units
are from 0 on; a range ends before its last unit."""

from lsp_trial import LIBRARY, UTF_8, environment, program, try_row
from trial import end

# What a refusal of the project file begins with.
PACKAGE = "package a is\nend;\n"
DEPENDS = '[[depends]]\nlibrary = "lib"\npath = "%s"\non_library = "lib"\non_path = "a.vhd"\n'
BENCH = "entity tb is generic (runner_cfg : string); end;\n"


def of_project(name, toml, line, start, end, text):
    try_row(name, {"vunit.toml": toml, "a.vhd": PACKAGE}, {"vunit.toml": [(line, start, end, text)]})


def of_list(name, csv, line, start, end, text):
    try_row(name, {"vunit.csv": csv, "a.vhd": PACKAGE}, {"vunit.csv": [(line, start, end, text)]})


def of_file(name, text, wanted, other=None, offers=None):
    """One or two files, and the findings in the first one, or in both."""
    files = {"vunit.toml": LIBRARY, "a.vhd": text, **({"b.vhd": other} if other else {})}
    try_row(name, files, wanted if isinstance(wanted, dict) else {"a.vhd": wanted}, offers)


def project_files():
    try_row("no project", {}, {"vunit.toml": [(0, 0, 0, "no vunit.toml and no vunit.csv")]})
    of_project("no TOML", '[[library]]\nname = "lib" x\n', 1, 13, 14, "vunit.toml isn't TOML")
    of_project("no TOML, behind other letters", '# é\r\nx = "😀" y\r\n', 1, 9, 10, "vunit.toml isn't TOML")
    of_project("a table without a name", LIBRARY + '\n[[library]]\nfiles = ["*.vhd"]\n', 4, 0, 11, "vunit.toml: no key library.name")
    # (a key that is not known has a warning beside it)
    try_row("no library", {"vunit.toml": "x = 1\n", "a.vhd": PACKAGE},
            {"vunit.toml": [(0, 0, 1, "unknown key x"), (0, 0, 5, "vunit.toml: no key library")]})
    of_project("files of the second table", LIBRARY + '[[library]]\nname = "b"\nfiles = 3\n', 5, 0, 5,
               "vunit.toml: wrong value of library.files")
    of_project("no word", "compiler = []\n" + LIBRARY, 0, 0, 8, "vunit.toml: wrong value of compiler")
    of_project("a path that leads out", LIBRARY + DEPENDS % "../x", 5, 0, 4, "vunit.toml: wrong value of depends.path")
    of_project("work", '[[library]]\nname = "Work"\nfiles = ["*.vhd"]\n', 1, 7, 13, "a library may not be named work")
    of_project("a library twice", LIBRARY + '[[library]]\nname = "LIB"\nfiles = ["*.vhd"]\n' + LIBRARY, 4, 7, 12, "library lib stands twice")
    of_project("no file", '[[library]]\nname = "lib"\nfiles = ["*.vhd", "é/😀*.vhd"]', 2, 18, 29, "nothing matches é/😀*.vhd")
    try_row("no file, in UTF-8", {"vunit.toml": '[[library]]\nname = "lib"\nfiles = ["*.vhd", "é/😀*.vhd"]', "a.vhd": PACKAGE},
            {"vunit.toml": [(2, 18, 32, "nothing matches é/😀*.vhd")]}, UTF_8)
    of_project("a file of no library", LIBRARY + DEPENDS % "b.vhd", 5, 7, 14, "lib, b.vhd isn't in the project")


def lists():
    of_list("work", "lib, a.vhd\n work , b.vhd\n", 1, 1, 5, "a library may not be named work")
    of_list("a file twice", "lib,a.vhd\nlib,b.vhd\nLib,\ta.vhd\nlib,a.vhd", 2, 5, 10, "lib, a.vhd stands twice")
    of_list("a bad line", "lib,a.vhd\r\nlib\r\n", 1, 0, 3, "vunit.csv: bad line 2")
    of_list("an absent file", "lib,a.vhd\nlib , b.vhd\n", 1, 6, 11, "lib, b.vhd is absent")
    of_list("too many files", "".join(f"l,{number}.vhd\n" for number in range(4097)), 0, 0, 7, "over limit: files 4096")


def tokens():
    text = 'package a is\n  constant é : string := "😀é;\nend;'
    of_file("a string", text, [(1, 25, 30, "lib, a.vhd: unclosed string at 39")])
    of_file("a string, in UTF-8", text, [(1, 26, 34, "lib, a.vhd: unclosed string at 39")], offers=UTF_8)
    of_file("an extended identifier", "package a is\r\n signal \\é b;\r\nend;", [(1, 8, 13, "lib, a.vhd: unclosed extended identifier at 22")])
    of_file("a comment", "package a is end;\n  /* é\nend", [(1, 2, 6, "lib, a.vhd: unclosed comment at 20")])
    of_file("no unit", "package a is\r\nend;\r\nfoo bar", [(2, 0, 3, "lib, a.vhd: no design unit at 20")])
    of_file("not ended", "-- é😀\nentity e is\n", [(1, 0, 6, "lib, a.vhd: design unit not ended at 10")])
    of_file("not ended, behind other letters", "/* é😀 */ entity e is", [(0, 10, 16, "lib, a.vhd: design unit not ended at 13")])
    of_file("a line that ends by CR alone", "package a is end;\rfoo", [(1, 0, 3, "lib, a.vhd: no design unit at 18")])


def units():
    text = "lib.p stands in lib, a.vhd and lib, b.vhd"
    of_file("a package twice", "package p is end;\n", {"a.vhd": [(0, 8, 9, text)], "b.vhd": [(1, 1, 2, text)]}, "  package\n P is end;\n")
    text = "lib.e(r) stands in lib, a.vhd and lib, b.vhd"
    of_file("an architecture twice", "entity e is end;\narchitecture r of e is begin end;\n",
            {"a.vhd": [(1, 13, 14, text)], "b.vhd": [(0, 13, 14, text)]}, "architecture R of E is begin end;\n")
    text = "body lib.p stands in lib, a.vhd and lib, a.vhd"
    of_file("a body twice in one file", "package p is end;\npackage body p is end;\npackage body p is end;",
            [(1, 13, 14, text), (2, 13, 14, text)])
    text = "-- lib.x\nentity e is end;\narchitecture r of e is begin\n  /* 😀é lib.x */ u : entity work.x;\nend;"
    of_file("no such unit", text, [(3, 29, 35, "lib, a.vhd: no unit lib.x")])
    of_file("no such unit, in UTF-8", text, [(3, 32, 38, "lib, a.vhd: no unit lib.x")], offers=UTF_8)
    of_file("no entity", "architecture r of gone is begin end;", [(0, 18, 22, "lib, a.vhd: no unit lib.gone")])
    of_file("no architecture", "entity e is end;\n", {"b.vhd": [(2, 20, 24, "lib, b.vhd: no architecture fast of lib.e")]},
            "entity t is end;\narchitecture r of t is begin\n  u : entity work.e(fast);\nend;\n")
    of_file("no architecture for a configuration", "entity e is end;\n",
            {"b.vhd": [(0, 28, 32, "lib, b.vhd: no architecture fast of lib.e")]}, "configuration c of e is for fast end for; end;")
    text = "cycle\n  lib, a.vhd\n  lib, b.vhd"
    of_file("a cycle", "use work.b.all;\npackage a is end;\n", {"a.vhd": [(0, 4, 10, text)], "b.vhd": [(0, 4, 10, text)]},
            "use work.a.all;\npackage b is end;\n")


def benches():
    bodies = "architecture %s of tb is begin end;\n"
    of_file("two architectures", BENCH + bodies % "a" + bodies % "b", [(0, 7, 9, "bench lib.tb has two architectures")])
    of_file("no architecture of a bench", BENCH, [(0, 7, 9, "bench lib.tb has no architecture")])
    calls = BENCH + 'architecture a of tb is begin process begin\n  if run("%s") then\n  elsif run("%s") then end if;\nend process; end;\n'
    of_file("a case without a name", calls % ("x", ""), [(0, 7, 9, "bench lib.tb has a bad test name")])
    of_file("a case twice", calls % ("é", "é"), [(3, 13, 14, "test lib.tb.é stands twice")])
    many = "".join(f'if run("{number}") then end if;\n' for number in range(65537))
    try_row("too many tests", {"vunit.toml": LIBRARY, "a.vhd": BENCH + "architecture a of tb is begin process begin\n" + many + "end process; end;\n"},
            {"vunit.toml": [(0, 0, 11, "over limit: tests 65536")]})


def limits():
    try_row("a long buffer", {"vunit.toml": LIBRARY, "a.vhd": PACKAGE}, {"vunit.toml": [(0, 0, 11, "over limit: text bytes 4194304")]},
            buffers={"a.vhd": PACKAGE + " " * (4_194_305 - len(PACKAGE))})
    for limit in ("slots 64", "names 65536", "total bytes 67108864"):
        said = program("said", f"echo 'vunit_run: over limit: {limit}'\nexit 5\n")
        try_row(limit, {"vunit.toml": LIBRARY, "a.vhd": PACKAGE}, {"vunit.toml": [(0, 0, 11, f"over limit: {limit}")]},
                env=environment(said))


def newer_programs():
    files = {"vunit.toml": LIBRARY, "a.vhd": "package a is\n  é x;\nend;\n"}
    said = program("said", "printf 'vunit_run: lib, a.vhd: a new\\n  refusal\\n'; exit 1\n")
    try_row("an unknown refusal", files, {"vunit.toml": [(0, 0, 11, "lib, a.vhd: a new\n  refusal")]}, env=environment(said))
    said = program("said", "echo 'vunit_run: lib, a.vhd: a new refusal'; echo 'a.vhd:2:6: lib, a.vhd: a new refusal' >&2; exit 1\n")
    try_row("an unknown refusal with a place", files, {"a.vhd": [(1, 4, 5, "lib, a.vhd: a new refusal")]}, env=environment(said))
    said = program("said", "echo 'vunit_run: lib, a.vhd: no unit x'; exit 1\n")
    try_row("a name of another form", files, {"vunit.toml": [(0, 0, 11, "lib, a.vhd: no unit x")]}, env=environment(said))
    said = program("said", "echo 'no such line'; exit 1\n")
    try_row("an unknown text", files, {"vunit.toml": [(0, 0, 11, "no such line")]}, env=environment(said))
    said = program("said", """case $1 in -f) echo 'lib, a.vhd'; echo 'Listed 1 files';; esac
echo 'half a line vunit_run: warning: vunit.toml:2:1: unknown key nam (did you mean name?)' >&2
echo 'vunit_run: warning: nothing is simulated' >&2
case $1 in --export-json=*) echo '{"files":[],"tests":[]}' >"${1#*=}";; esac
""")
    try_row("warnings on standard error", files, {"vunit.toml": [(1, 0, 4, "unknown key nam (did you mean name?)"),
                                                                 (0, 0, 11, "nothing is simulated")]}, env=environment(said))
    said = program("said", """echo 'vunit_run: lib, a.vhd: no unit lib.é'
echo 'a.vhd:2:3: no unit lib.é' >&2
echo 'a.vhd:3:1: no unit lib.z' >&2
exit 1
""")
    try_row("more places of one refusal", files, {"a.vhd": [(1, 2, 3, "lib, a.vhd: no unit lib.é"), (2, 0, 3, "no unit lib.z")]},
            env=environment(said))


for rows in (project_files, lists, tokens, units, benches, limits, newer_programs):
    rows()
end()
