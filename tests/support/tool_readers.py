"""Tries what the tools beside the program read: patterns, generics of an entity, the words of ghdl_bench, TOML. What each row
gives is written by hand, from docs/user/MANUAL.md, docs/user/GHDL.md, the standard, and TOML 1.0."""

import os, random, re, sys

sys.path.insert(0, os.path.join(os.environ["TOP"], "wrappers"))
import bench_words, ghdl_analyse, ghdl_bench
from bench_words import BenchRun, GivenWords, WrongWord
from name_patterns import NamePattern, PathPattern, project_files
from toml_text import MOMENT, TomlFault, read_toml
from vhdl_generics import generics_of

failures = []


def check(name, got, wanted):
    if got != wanted:
        failures.append(name)
        if len(failures) <= 5:
            print(f"{name}: {got} and not {wanted}")


# Names: the rows of the program's own matcher are tried too, as both follow one page.
with open(os.path.join(os.environ["TOP"], "crates/tests_vhdl/src/tests/patterns.rt"), encoding="utf-8") as file:
    rows = re.search(r'static ROWS: &str = "\\\n(.*?)";', file.read(), re.S)[1].splitlines()
assert len(rows) > 50, rows
for row in [*(row.split(" ") for row in rows), ("", "", "1"), ("*", "", "1"), ("**", "", "1"), ("?", "", "0"), ("[!a]", "", "0"),
            ("", "a", "0"), ("a*b*", "ab", "1"), ("*ab*ab", "xabab", "1"), ("*ab*ab", "xab", "0"), ("*?", "", "0")]:
    pattern, name, wanted = row
    check(row, NamePattern(pattern.encode()).matches(name.encode()), wanted == "1")
# (the time goes by the product of both lengths, and not by the number of ways)
check("many stars", NamePattern(b"*a" * 200 + b"b").matches(b"a" * 20_000), False)

PATHS = [("**/*.vhd", "a.vhd", 1), ("**/*.vhd", "a/b/a.vhd", 1), ("a/**", "a", 1), ("a/**", "a/b/c", 1), ("a/**/b", "a/b", 1),
         ("a/**/b", "a/x/y/b", 1), ("a/**/b", "ab", 0), ("*", "a/b", 0), ("**", "a/b", 1), ("a/*/c", "a/b/c", 1),
         ("a/*/c", "a/b/d/c", 0), ("**/**/c", "c", 1), ("a**/b", "aa/b", 1), ("a**/b", "aa/x/b", 0), ("a/b", "a/b/c", 0)]
for pattern, path, wanted in PATHS:
    check((pattern, path), PathPattern(pattern.encode()).matches(path.encode()), wanted == 1)
for path in ["files/a/x.txt", "files/.git/x.txt", "files/vunit_out/x.txt", "files/a/vunit_out/y.txt", "files/b.txt", "files/.c"]:
    os.makedirs(os.path.dirname(path), exist_ok=True)
    with open(path, "w", encoding="ascii"):
        pass
os.symlink("a", "files/link")
os.symlink("b.txt", "files/linked.txt")
check("files", project_files(b"files", b"vunit_out"), [b"a/vunit_out/y.txt", b"a/x.txt", b"b.txt", b"linked.txt"])

# Generics: clause 6.5.2 of the standard has the interface constants.
GENERICS = [
    (b"entity Tb is generic (runner_cfg : string; Width, \\Odd \\\\ N\\ : integer := 3; constant b : boolean := true); end;",
     b"tb", [b"runner_cfg", b"width", b"\\Odd \\\\ N\\", b"b"]),
    (b'library x; use x."+"; entity tb is end;', b"tb", []),
    (b"entity tb is port (a : in bit); end;", b"tb", []),
    (b"entity tb is generic (a : string := \");:\"\"(\"; b : character := ';'; c : integer := integer'high; d : bit := bit'('0');"
     b" e : string(1 to f(3)) := (1 => ';', others => ')')); port (x : in bit); end;", b"tb", [b"a", b"b", b"c", b"d", b"e"]),
    (b"entity tb is generic (type t; a : t; package p is new work.q generic map (x => 1); impure function f(a : integer; b : bit)"
     b" return bit is <>; procedure g(x : t); z : integer); end;", b"tb", [b"a", b"z"]),
    (b"-- entity tb is generic (n : bit);\nentity tb is /* generic ( */ generic -- (\n ( a -- : x;\n : bit) ; end;", b"tb", [b"a"]),
    (b"entity other is generic (n : bit); end; entity tb is generic (m : bit); end;", b"tb", [b"m"]),
    (b"entity \\Tb\\ is generic (m : bit); end;", b"\\Tb\\", [b"m"]),
    (b"ENTITY TB IS GENERIC (M\n: BIT); END;", b"tb", [b"m"]),
    # (what GHDL would never have taken ends without a fault)
    (b"entity tb is generic (m", b"tb", []), (b"entity tb is generic (", b"tb", []), (b"entity tb is generic (: )", b"tb", []),
    (b"entity tb is generic (m : bit := '", b"tb", []), (b'entity tb is generic (m : string := "', b"tb", []), (b"", b"tb", []),
    (b"entity tb is generic (/*", b"tb", []), (b"entity tb is generic (\\", b"tb", [])]
for source, name, wanted in GENERICS:
    check(source, generics_of(source, 0, name), wanted)
check("behind an offset", generics_of(b"entity tb is end; entity tb is generic (a : bit); end;", 17, b"tb"), [b"a"])

# (a start looks for these without the module that reads them)
check("words that are given", {*ghdl_bench.GIVEN}, {b"-g", bench_words.IN, bench_words.BEFORE, bench_words.AFTER, bench_words.DATA,
                                                    bench_words.KEY, bench_words.CONFIGURATION})
check("a word that both pass over", ghdl_analyse.KEY, bench_words.KEY)

# Words of ghdl_bench, over a case of its own, two cases in one simulation, and a bench without cases.
ALONE = BenchRun(b"tb_lib", b"tb_x", [b"loads: a word"], b"vunit_out/tests/tb_lib.tb_x.loads=3a=20a=20word")
IN_ONE = BenchRun(b"tb_lib", b"tb_x", [b"a", b"b"], b"vunit_out/tests/tb_lib.tb_x")
WHOLE = BenchRun(b"tb_lib", b"tb_x", [], b"vunit_out/tests/tb_lib.tb_x")


def given(run, *words):
    """What words say, with the generics of a bench that has `width` and `name`, in a project in which some bench has `depth`."""
    try:
        said = GivenWords([word.encode() for word in words], run)
        generics = said.generics_for([b"width", b"name"], lambda name: name == b"depth")
    except WrongWord as wrong:
        return wrong.args[0].decode()
    return ([word.decode() for word in said.plain], [generic.word.decode() for generic in generics], said.before, said.after,
            said.data, said.configuration)


def plain(*words, generics=(), before=(), after=(), data=None, configuration=None):
    return list(words), list(generics), list(before), list(after), data, configuration


NOT_FOR_THE_FILE = "isn't for the project file: it names a file, a library or the runner's generic"
NOT_IN = "isn't --in=PATTERN:WORDS"
WORDS = [
    (ALONE, [], plain()),
    (ALONE, ["--stop-time=1ms", "-gwidth=4", "-fsynopsys"], plain("--stop-time=1ms", "-fsynopsys", generics=["-gwidth=4"])),
    (ALONE, ["-gwidth=4", "-gWIDTH=8"], plain(generics=["-gWIDTH=8"])),
    (ALONE, ["-gdepth=4"], plain()),
    (ALONE, ["-gwidht=4"], "-gwidht=4: no bench among the files has a generic widht (with -m, use --in=LIBRARY.BENCH:-gwidht=4)"),
    (ALONE, ["--in=tb_lib.tb_x:-gwidth=8 --stop-time=1ms  -gname=a:-b", "-gwidth=4"],
     plain("--stop-time=1ms", generics=["-gwidth=8", "-gname=a:-b"])),
    (ALONE, ["--in=tb_lib.tb_y:-gwidth=8"], plain()),
    (ALONE, ["--in=tb_lib.*:-gdepth=8"], "-gdepth=8: the bench tb_lib.tb_x has no generic depth"),
    (ALONE, ["--in=*.tb_?:-gwidth=8"], plain(generics=["-gwidth=8"])),
    (ALONE, ["--in=tb_lib.tb_x.loads: a word:-gwidth=8"], plain(generics=["-gwidth=8"])),
    (ALONE, ["--in=tb_lib.tb_x.stores:-gwidth=8"], plain()),
    (ALONE, ["--in=tb_lib.tb_x.loads*:--cpu-limit=3 --data=tb/*.txt --key=7"], plain("--cpu-limit=3", data=[b"tb/*.txt"])),
    (IN_ONE, ["--in=tb_lib.tb_x:-gwidth=8"], plain(generics=["-gwidth=8"])),
    (IN_ONE, ["--in=tb_lib.tb_x.b:-gwidth=8"],
     "--in=tb_lib.tb_x.b:-gwidth=8 names a case of tb_lib.tb_x, whose cases run in one simulation: name the bench"),
    (IN_ONE, ["--in=tb_lib.tb_x.c:-gwidth=8"], plain()),
    (WHOLE, ["--in=tb_lib.tb_x.all:-gwidth=8"], plain(generics=["-gwidth=8"])),
    (ALONE, ["--in=tb_lib.tb_x"], f"--in=tb_lib.tb_x {NOT_IN}, of which each word begins with -"),
    (ALONE, ["--in=:-gwidth=8"], f"--in=:-gwidth=8 {NOT_IN}, of which each word begins with -"),
    (ALONE, ["--in=a:-gwidth=8 x"], f"--in=a:-gwidth=8 x {NOT_IN}: x doesn't begin with -"),
    (ALONE, ["--in=*:--in=*:-gwidth=8"], "--in=*:-gwidth=8 stands within words of --in or of a configuration"),
    (ALONE, ["-gwidth"], "-gwidth isn't -gNAME=VALUE, with a name that isn't extended"),
    (ALONE, ["-g\\Width\\=1"], "-g\\Width\\=1 isn't -gNAME=VALUE, with a name that isn't extended"),
    (ALONE, ["-g=1"], "-g=1 isn't -gNAME=VALUE, with a name that isn't extended"),
    (ALONE, ["-gwidth="], "-gwidth= has no value: GHDL takes none that is empty"),
    (ALONE, ["-gRunner_cfg=x"], f"-gRunner_cfg=x {NOT_FOR_THE_FILE}"),
    (ALONE, ["-goutput_path=x"], f"-goutput_path=x {NOT_FOR_THE_FILE}"),
    (ALONE, ["--data="], plain(data=[])),
    (ALONE, ["--data=tb/in.txt", "--data=", "--data=**/*.csv"], plain(data=[b"tb/in.txt", b"**/*.csv"])),
    (ALONE, ["--data=/etc/passwd"], "--data=/etc/passwd doesn't name files below the project"),
    (ALONE, ["--data=a/../../b"], "--data=a/../../b doesn't name files below the project"),
    (ALONE, ["--data=a//b"], "--data=a//b doesn't name files below the project"),
    (ALONE, ["--before=make it", "--after=check it", "--before=and this"],
     plain(before=[b"make it", b"and this"], after=[b"check it"])),
    (ALONE, ["--before= "], "--before=  has no command"),
    (ALONE, ["-gwidth=1", "--in=*:-gwidth=2", "--configuration=wide, and deep", "-gwidth=3", "--before=x"],
     plain(generics=["-gwidth=3"], before=[b"x"], configuration=b"wide, and deep")),
    (ALONE, ["--configuration=wide", "-gdepth=3"], "-gdepth=3: the bench tb_lib.tb_x has no generic depth"),
    (ALONE, ["--configuration="], "--configuration= has no name"),
    (ALONE, ["--configuration=a", "--configuration=b"], "--configuration=b stands within words of --in or of a configuration")]
for run, words, wanted in WORDS:
    check(words, given(run, *words), wanted)


# TOML: rows by hand, and texts made from seeds beside the reader that Python has from 3.11 on.
def toml(text):
    try:
        return read_toml(text if isinstance(text, bytes) else text.encode())
    except TomlFault as fault:
        return str(fault)


TOML = [
    ("", {}), ("a = 1\r\nb.c = 'x' # y\n", {"a": 1, "b": {"c": "x"}}), ('a = "\\u00e9\\t\\\\"', {"a": "\u00e9\t\\"}),
    ("a = [1,\n  # two\n  [2, 3,],\n]", {"a": [1, [2, 3]]}), ("a = {b = true, c.d = 0x1F}", {"a": {"b": True, "c": {"d": 31}}}),
    ("[[t]]\nn = 1\n[[t]]\nn = 2\n[t.u]\nm = 1_000", {"t": [{"n": 1}, {"n": 2, "u": {"m": 1000}}]}),
    ('a = """\nx\\\n   y"z""""', {"a": 'xy"z"'}), ("a = '''x''y'''", {"a": "x''y"}), ("a = -1.5e3", {"a": -1500.0}),
    ("a = 1\na = 2", "2:1: a stands twice"), ("[a]\n[a]", "2:2: a stands twice"), ("a = {}\n[a.b]", "2:2: a stands twice"),
    ("a = 1\nb = [1,\n  x]", "3:3: this is no value"), ("a = 'x", "1:5: a text isn't closed"), ("a 1", "1:3: = is missing here"),
    ("a = 1 b", "1:7: the line has to end here"), ("= 1", "1:1: a key is missing here"), ("a = 01", "1:5: this is no value"),
    ("\n\n [a\n", "3:4: ] is missing here"), ('a = "\\q"', "1:6: this is no escape"), ("a = 1\rb = 2", "1:6: a carriage return "
     "stands without a line feed"), ("a = 'x\x01'", "1:7: a control character stands in a text"),
    (b"a = 1\nb = '\xff'", "2:6: this isn't UTF-8"), ("a = 9223372036854775808", "1:5: a number has over 64 bits"),
    ("a = " + "[" * 80 + "]" * 80 + "\nb = x", "2:5: this is no value"), ("a = " + "[" * 1000, "1:85: arrays and tables lie over 80 deep in each other"),
    (".".join("a" * 100) + " = 1", "1:162: a key has over 80 parts")]
for text, wanted in TOML:
    check(text, toml(text), wanted)

LINES = ["a = 1", 'b = "x"', "a.b = 2", "a.c.d = [1, 2,\n 3]", "[a]", "[a.b]", "[[a]]", "[[a.b]]", "c = {a = 1, b.c = 2}", "b.c.e = 1",
         "[b]", "[b.c]", '"a" = 3', "d = '''\nx'''", 'd = """a\\\n   b"""', "# x", "e = [{a=1},{b=2}]", "[c]", "c.x = 1", "[[e]]",
         "f = 1979-05-27T07:32:00Z", "g = [[1],[\"a\"],]", "[a.b.c]", "b.x = 1", "h = inf", "h = 0b11"]
PARTS = ["a", '"a"', "a.b", "=", "1", '"x\\n"', "'y'", '"""', "'''", "\n", "[", "]", "{", "}", ",", "#c", "\\", "true", "\r\n", " ", "\x01"]


def plain_values(value):
    """The value with the one text for each date, and for what isn't a number."""
    if isinstance(value, dict):
        return {key: plain_values(inner) for key, inner in value.items()}
    if isinstance(value, list):
        return [plain_values(inner) for inner in value]
    is_moment = not isinstance(value, (int, float, str)) or isinstance(value, str) and MOMENT.fullmatch(value)
    return "a moment" if is_moment else value


try:
    import tomllib
except ImportError:
    print("not tried: TOML beside the reader of Python, which is older than 3.11")
else:
    seeded, taken = random.Random(55), 0
    for _ in range(20_000):
        text = "\n".join(seeded.choice(LINES) for _ in range(seeded.randint(1, 6)))
        if seeded.random() < 0.4:
            at = seeded.randrange(len(text) + 1)
            text = text[:at] + seeded.choice(PARTS) + text[at:]
        try:
            wanted = plain_values(tomllib.loads(text))
        except tomllib.TOMLDecodeError:
            wanted = None
        got = toml(text)
        taken += wanted is not None
        check(text, None if isinstance(got, str) else plain_values(got), wanted)
    assert 2_000 < taken < 18_000, taken

sys.exit(1 if failures else 0)
