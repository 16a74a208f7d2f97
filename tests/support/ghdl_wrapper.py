"""Tries wrappers/ghdl_analyse alone: what it answers, what it leaves behind, and that nothing but request and words count.
Works in the present folder, which is empty."""

import os, random, resource, signal, subprocess, sys, time, zlib
from compile_requests import WRAPPER, compile_one, fields

tmp = os.path.abspath("tmp")
os.mkdir(tmp)
os.environ["TMPDIR"] = tmp

PACKAGE = b"package p is\n  constant c : integer := 1;\nend package p;\n"
ENTITY = b"library lib;\nuse lib.p.all;\nentity e is\n  generic (g : integer := c);\nend entity e;\n"
REFUSED = b'architecture a of e is\nbegin\n  foo <= "x";\nend architecture a;\n'
SAID = b"%s:3:3: no declaration for \"foo\"\n  foo <= \"x\";\n  ^\n"


def check(name, got, wanted):
    assert not os.listdir(tmp), f"{name}: left behind: {os.listdir(tmp)}"
    assert got == wanted, f"{name}: {got} and not {wanted}"


def request(*parts):
    return b"".join(fields(*parts))


def made(*parts, words=(), **settings):
    code, artefact, said = compile_one(request(*parts), words, **settings)
    assert code == 0 and not said, (parts[:2], artefact, said)
    return artefact


def script(folder, text):
    """A command ghdl in a new folder; gives a PATH that begins with it."""
    os.mkdir(folder)
    with open(f"{folder}/ghdl", "w") as file:
        file.write("#!/bin/sh\n" + text)
    os.chmod(f"{folder}/ghdl", 0o755)
    return {**os.environ, "PATH": os.path.abspath(folder) + ":" + os.environ["PATH"]}


p = (b"lib", b"src/p.vhd", made(b"lib", b"src/p.vhd", PACKAGE))
e = (b"lib2", b"e.vhd", made(b"lib2", b"e.vhd", ENTITY, [p]))
check("refused", compile_one(request(b"lib2", b"a.vhd", REFUSED, [p, e])), (1, SAID % b"a.vhd", b""))

# Invalid input: cut at each edge of a field, at seeded bytes, too long, of bad libraries.
parts = fields(b"lib2", b"a.vhd", REFUSED, [p, e])
whole = b"".join(parts)
edges = {sum(map(len, parts[:count])) for count in range(len(parts))}
for count in sorted(edges | set(random.Random(16).sample(range(len(whole)), 64))):
    check(f"cut at {count}", compile_one(whole[:count]), (2, b"bad request\n", b""))
libraries = [b"", b"../lib", b"a/b", b"1a", b"a" * 65]
for data in [whole + b"x", b"VRC2" + whole[4:], *(request(library, b"p.vhd", PACKAGE) for library in libraries)]:
    check(data[:40], compile_one(data), (2, b"bad request\n", b""))

# Nothing but request and words counts: neither folders nor the time.
os.makedirs("a b/c")
for folder in [tmp, os.path.abspath("a b/c"), "a b"]:
    settings = {"env": {**os.environ, "TMPDIR": folder}, "cwd": "." if folder == "a b" else "/"}
    check(folder, compile_one(request(b"lib2", b"e.vhd", ENTITY, [p]), **settings), (0, e[2], b""))
    check(folder, compile_one(whole, **settings), (1, SAID % b"a.vhd", b""))
assert os.listdir("a b") == ["c"] and not os.listdir("a b/c")
check("no folder", compile_one(whole, env={**os.environ, "TMPDIR": "/nowhere"}),
      (75, b"", b"ghdl_analyse: No such file or directory (TMPDIR is /nowhere)\n"))
check("a line feed", compile_one(whole, env={**os.environ, "TMPDIR": tmp + "\n"}),
      (1, b"ghdl_analyse: GHDL takes no line feed in the name of a folder: set TMPDIR to another\n", b""))

# Names that no file can have, and libraries with the names of folders.
for path in [b'a "b".vhd', b"a\\b.vhd", "ä/€.vhd".encode(), b"ghdl_analyse_0.vhd", b"\\1\\g<0>"]:
    check(path, compile_one(request(b"lib2", path, REFUSED, [p, e])), (1, SAID % path, b""))
    check(path, compile_one(request(b"lib2", b"e.vhd", ENTITY, [(b"lib", path, p[2])])), (0, e[2], b""))
for library in [b"v08", b"src", b"Lib", b"ghdl_analyse_0"]:
    os.makedirs(library + b"/v08")
    used = [(library, b"p.vhd", made(library, b"p.vhd", PACKAGE))]
    made(b"lib2", b"e.vhd", ENTITY.replace(b" lib", b" " + library), used)
    assert os.listdir(library) == [b"v08"] and not os.listdir(library + b"/v08")
    os.removedirs(library + b"/v08")

# Places in files that are depended on are named too.
function = b"package %s is\n  function f return integer;\nend;\n"
two = [(b"lib", name + b".vhd", made(b"lib", name + b".vhd", function % name)) for name in (b"one", b"two")]
calls = b"use work.one.all, work.two.all;\nentity e is\n  generic (g : integer := f);\nend entity e;\n"
code, said, _ = compile_one(request(b"lib", b"e.vhd", calls, two))
assert code == 1 and b"one.vhd:2:12" in said and b"two.vhd:2:12" in said and b"ghdl_analyse" not in said, said

# A library of the project stands for one of that name that GHDL brings.
use = b"library ieee;\nuse ieee.math_real.%s;\nentity e is\nend entity e;\n"
own = (b"ieee", b"m.vhd", made(b"ieee", b"m.vhd", b"package math_real is\n  constant own : integer := 1;\nend;\n"))
made(b"lib", b"e.vhd", use % b"math_pi")
made(b"lib", b"e.vhd", use % b"own", [own])
assert compile_one(request(b"lib", b"e.vhd", use % b"math_pi", [own]))[0] == 1

# Artefacts of others.
old = made(b"lib", b"src/p.vhd", PACKAGE, words=["--std=93"])
for other in [b"", b"unit package p\n", b"x" + p[2], p[2] + b"x", p[2][:-1], p[2].replace(b" on ", b"\non "), old]:
    used = [(b"lib", b'"p"', other)]
    check(other, compile_one(request(b"lib2", b"e.vhd", ENTITY, used)),
          (1, b'ghdl_analyse: lib, "p": made by another compiler, or with another --std\n', b""))
made(b"lib2", b"e.vhd", ENTITY, [(*p[:2], old)], words=["--std=87", "--std=93"])
earlier = p[2].replace(b"ghdl_analyse 2 ", b"ghdl_analyse 1 ")
check("an earlier artefact", compile_one(request(b"lib2", b"e.vhd", ENTITY, [(*p[:2], earlier)])),
      (1, b"ghdl_analyse: lib, src/p.vhd: made by an earlier ghdl_analyse: run once with --clean\n", b""))

# Words: --std, libraries that the project doesn't have, and what isn't GHDL's business.
os.makedirs("vendor/prims")
with open("vendor/prims/p.vhd", "wb") as file:
    file.write(PACKAGE)
subprocess.run(["ghdl", "-a", "--std=08", "--work=lib", "p.vhd"], cwd="vendor/prims", check=True)
made(b"lib2", b"e.vhd", ENTITY, words=["-Pvendor/prims"])
for word in ["--work=x", f"--workdir={tmp}", "--PREFIX=/", "x.vhd", ""]:
    said = f"ghdl_analyse: {word} isn't for the project file: it names a file or a library\n"
    check(word, compile_one(whole, [word]), (1, said.encode(), b""))
code, said, _ = compile_one(whole, ["--frob"])
assert code == 1 and b"unknown command option '--frob'" in said, said

# Words that a file needs wherever it is used are handed on with it: its library's, and not those of its users.
loose = b"library ieee;\nuse ieee.std_logic_arith.all;\npackage a is\n  subtype u is unsigned(1 downto 0);\nend package a;\n"
uses = b"library liba;\nuse liba.a.all;\npackage b is\n  constant c : natural := u'length;\nend package b;\n"
assert compile_one(request(b"liba", b"a.vhd", loose))[0] == 1
a = (b"liba", b"a.vhd", made(b"liba", b"a.vhd", loose, words=["-fsynopsys", "-Wno-hide"]))
assert a[2].split(b"\n")[0].endswith(b" -fsynopsys"), a[2].split(b"\n")[0]
b = (b"libb", b"b.vhd", made(b"libb", b"b.vhd", uses, [a]))
assert b[2].split(b"\n")[0].count(b" ") == 3, b[2].split(b"\n")[0]
made(b"libc", b"c.vhd", b"library libb;\nuse libb.b.all;\npackage c is\nend package c;\n", [a, b])
odd = made(b"lib2", b"e.vhd", ENTITY, words=["-Pvendor/prims", "-Pno such=folder"]).split(b"\n")[0]
assert odd.endswith(b" -Pvendor/prims -Pno=20such=3dfolder"), odd
os.mkdir("elsewhere")
os.rename("vendor", "elsewhere/vendor")
e2 = (b"lib2", b"e.vhd", made(b"lib2", b"e.vhd", ENTITY, words=["-Pvendor/prims"], cwd="elsewhere"))
over = b"library lib2;\nentity f is\nend;\narchitecture a of f is\nbegin\n  u : entity lib2.e;\nend;\n"
made(b"lib3", b"f.vhd", over, [e2], cwd="elsewhere")
assert compile_one(request(b"lib3", b"f.vhd", over, [e2]))[0] == 1

# A library clause that nothing in the file uses; a missing unit is refused as by GHDL nevertheless.
bare = (b"tb", b"e.vhd", made(b"tb", b"e.vhd", b"library lib, other, ieee;\nentity e is\nend entity e;\n"))
uses_it = b"architecture a of e is\n  constant k : integer := lib.p.c;\nbegin\nend architecture a;\n"
made(b"tb", b"a.vhd", uses_it, [p, bare])
code, said, _ = compile_one(request(b"tb", b"a.vhd", uses_it, [bare]))
assert code == 1 and said.startswith(b'a.vhd:2:31: unit "p" not found in library "lib"'), said

# Comments do not belong to an artefact, and what only looks like one stays; lines stay in their places. A line as it is
# written, and if that differs as it is kept.
COMMENTS = r"""
package p is -- one
package p is
  constant a : string := "--" & "a""--"; -- "
  constant a : string := "--" & "a""--";
  constant \--\ : character := '-'; --'
  constant \--\ : character := '-';
  constant \a\\--b\ : character := '"'; -- "
  constant \a\\--b\ : character := '"';
  constant c : string := string'("--");--
  constant c : string := string'("--");
  constant d : bit := bit'('0');/**/constant e : bit_vector (1 to 2) := ('1','0'); --
  constant d : bit := bit'('0');    constant e : bit_vector (1 to 2) := ('1','0');
  constant f : integer :=/* two
  constant f : integer :=
     -- lines */16#FF#;
                16#FF#;
  constant g : integer := c'length/2 --/*
  constant g : integer := c'length/2
    ; -- */
    ;
  subtype s is character range '''to'\'; -- '
  subtype s is character range '''to'\';
  constant h : string := string /* - */ -- '
  constant h : string := string
'("--"); -- "
'("--");
  constant i : boolean := c(1)='-'; --  
  constant i : boolean := c(1)='-';
    
""" "\n" r"""end package p; -- é ÿ
end package p;
"""
lines = COMMENTS.strip("\n").encode("latin-1").split(b"\n")
written, kept = (b"".join(line + b"\n" for line in lines[of::2]) for of in (0, 1))
for ends in [b"\n", b"\r\n"]:
    artefact = made(b"lib", b"p.vhd", written.replace(b"\n", ends))
    got = zlib.decompress(artefact[artefact.index(b"\n\n") + 2 :])
    assert got == kept.replace(b"\n", ends), got.decode("latin-1")
    assert made(b"lib", b"p.vhd", kept.replace(b"\n", ends)) == artefact
check("a comment that GHDL refuses", compile_one(request(b"lib", b"src/p.vhd", PACKAGE + "-- —\n".encode()))[0], 0)
made(b"lib", b"p.vhd", PACKAGE + b"--", words=["--std=93"])
check("a block comment of 1993", compile_one(request(b"lib", b"p.vhd", PACKAGE + b"/**/"), ["--std=93"])[0], 1)
psl = b"""entity e is
end;
architecture a of e is
  signal clk, x : bit;
begin
  -- psl default clock is (clk'event and clk = '1');
  -- psl assert always x = '0';
end;
"""
with_psl = made(b"lib", b"e.vhd", psl, words=["-fpsl"])
assert b"psl" in zlib.decompress(with_psl.split(b"\n\n", 1)[1])
check("a fault of PSL", compile_one(request(b"lib", b"e.vhd", psl.replace(b"x = '0'", b"y")), ["-fpsl"])[0], 1)
made(b"lib", b"e.vhd", psl.replace(b"x = '0'", b"y"))

# Warnings are standard error's, with the user's path; no unit at all is GHDL's to refuse.
busy = b"entity b is\nend entity b;\narchitecture a of b is\nbegin\n  process\n  begin\n  end process;\nend;\n"
code, _, said = compile_one(request(b"lib", b"b.vhd", busy))
assert code == 0 and said.startswith(b"b.vhd:5:3:warning: "), said
check("empty", compile_one(request(b"lib", b"x.vhd", b""))[:2],
      (1, b"x.vhd:1:1: design file is empty (no design unit found)\n"))

# The body of a generic package, which an instance needs.
generic = b"package g is\n  generic (n : natural);\n  function f return natural;\nend package g;\n"
body = b"package body g is\n  function f return natural is\n  begin\n    return n;\n  end function f;\nend;\n"
instance = b"package i is new work.g generic map (n => 1);\n"
g = (b"lib", b"g.vhd", made(b"lib", b"g.vhd", generic))
code, said, _ = compile_one(request(b"lib", b"i.vhd", instance, [g]))
assert code == 1 and b'i.vhd:1:9: cannot find package body of package "g"' in said, said
assert said.endswith(b"(in vunit.toml, users_depend_on_bodies = true hands over the bodies of packages)\n"), said
made(b"lib", b"i.vhd", instance, [g, (b"lib", b"b.vhd", made(b"lib", b"b.vhd", body, [g]))])

# An architecture that a nested block configuration names, and an entity that it binds: what mends the project is said.
inner = (b"lib", b"inner.vhd", made(b"lib", b"inner.vhd", b"entity inner is\nend;\n"))
r = (b"lib", b"r.vhd", made(b"lib", b"r.vhd", b"architecture r of inner is\nbegin\nend;\n", [inner]))
outer = (b"lib", b"outer.vhd", made(b"lib", b"outer.vhd", b"""entity outer is
end;
architecture a of outer is
  component inner is
  end component;
begin
  u : inner;
end;
"""))
nested = b"""configuration c of outer is
  for a
    for u : inner use entity work.inner;
      for r
      end for;
    end for;
  end for;
end;
"""
MENDED = """(where a file of the project has it, these lines in vunit.toml hand it over:
[[depends]]
library = "lib"
path = "c.vhd"
on_library = "%s"
on_path = "PATH OF THE FILE THAT HAS IT")
"""
code, said, _ = compile_one(request(b"lib", b"c.vhd", nested, [inner, outer]))
wanted = (MENDED % "LIBRARY OF THE FILE THAT HAS IT").encode()
assert code == 1 and b'no architecture "r"' in said and said.endswith(wanted), said
code, said, _ = compile_one(request(b"lib", b"c.vhd", nested, [outer]))
assert code == 1 and b'"inner" not found in library "lib"' in said and said.endswith((MENDED % "lib").encode()), said
made(b"lib", b"c.vhd", nested, [inner, r, outer])

# What comes with VUnit and not with the wrapper has a hint of its own, unless the project has such a library.
TAKEN = b"(it is part of VUnit, and not of the vunit_lib beside ghdl_analyse: `take_vunit FOLDER` copies an installed VUnit)\n"
needy = b"library %s;\ncontext %s;\nentity e is\nend;\n"
for library, unit, missed in [(b"vunit_lib", b"vunit_lib.com_context", b"com_context"),
                              (b"osvvm", b"osvvm.osvvmcontext", b"osvvmcontext")]:
    code, said, _ = compile_one(request(b"lib", b"e.vhd", needy % (library, unit)))
    assert code == 1 and b'"%s" not found in library "%s"' % (missed, library) in said and said.endswith(TAKEN), said
own = (b"vunit_lib", b"p.vhd", made(b"vunit_lib", b"p.vhd", PACKAGE))
code, said, _ = compile_one(request(b"lib", b"c.vhd", needy % (b"vunit_lib", b"vunit_lib.com_context"), [own]))
assert code == 1 and said.endswith((MENDED % "vunit_lib").encode()), said

# No GHDL, one that keeps objects, one that says nothing, and one that writes something else.
os.mkdir("python")
os.symlink(sys.executable, "python/python3")
check("no ghdl", compile_one(whole, env={"PATH": os.path.abspath("python"), "TMPDIR": tmp}),
      (75, b"", b"ghdl_analyse: there is no command ghdl\n"))
check("no python3", compile_one(whole, env={"PATH": tmp, "TMPDIR": tmp}), (75, b"", b"ghdl_analyse: there is no command python3\n"))
objects = script("objects", "[ $1 = -a ] && : >x.o\necho ' llvm code generator'\n")
check("objects", compile_one(whole, env=objects)[:2], (1, b"ghdl_analyse: mcode is supported, and not llvm\n"))
check("silent", compile_one(whole, env=script("silent", "exit 3\n")), (1, b"ghdl_analyse: ghdl ended with 3\n", b""))
other = script("other", "echo 'v 5' >lib2-obj08.cf\n")
check("other", compile_one(whole, env=other)[:2], (1, b"ghdl_analyse: this ghdl writes library files of another form\n"))

# Too long ones: an artefact, a source, a request for the available memory, which is read to its end nevertheless.
digits = random.Random(1).randbytes(300_000).hex().encode()
constant = b"  constant c%d : string := \"%s\";\n"
constants = b"".join(constant % (at, digits[at : at + 80]) for at in range(0, len(digits), 80))
for long in [PACKAGE.replace(b"end", constants + b"end", 1), PACKAGE + b"--" + b" " * 4_194_304]:
    check("long", compile_one(request(b"lib", b"p.vhd", long)), (1, b"ghdl_analyse: the file is too long\n", b""))
check("a long comment", compile_one(request(b"lib", b"src/p.vhd", PACKAGE + b"--" + digits)), (0, p[2], b""))
little = lambda: resource.setrlimit(resource.RLIMIT_AS, (200_000_000, 200_000_000))
child = subprocess.Popen([WRAPPER], stdin=subprocess.PIPE, stdout=subprocess.PIPE, preexec_fn=little)
child.stdin.write(request(b"lib", b"p.vhd", bytes(300_000_000)))
child.stdin.close()
check("memory", (child.stdout.read(), child.wait()), (b"ghdl_analyse: out of memory\n", 1))

# Signals, at moments from the start on, and while GHDL runs: nothing is left behind, and GHDL has ended.
slow = script("slow", "echo $$ >$0.new\nmv $0.new $0.pid\n: >more\nsleep 60\n")
for number in [signal.SIGINT, signal.SIGTERM, signal.SIGHUP]:
    for moment in [*(step / 100 for step in range(2, 14, 2)), "in GHDL"]:
        if os.path.exists("slow/ghdl.pid"):
            os.remove("slow/ghdl.pid")
        # (a shell may have had it ignored)
        child = subprocess.Popen([WRAPPER], stdin=subprocess.PIPE, stdout=subprocess.PIPE, stderr=subprocess.DEVNULL, env=slow,
                                 preexec_fn=lambda: signal.signal(number, signal.SIG_DFL))
        child.stdin.write(whole)
        child.stdin.close()
        if moment != "in GHDL":
            time.sleep(moment)
        while moment == "in GHDL" and not os.path.exists("slow/ghdl.pid"):
            time.sleep(0.01)
        child.send_signal(number)
        check((number, moment), child.stdout.read(), b"")
        # (before the wrapper's first line a signal ends Python, by the signal or with a code of its own)
        codes = [128 + number] + [-number, 1] * (moment != "in GHDL")
        assert child.wait() in codes, (number, moment, child.returncode)
    with open("slow/ghdl.pid") as file:
        assert not os.path.exists(f"/proc/{file.read().strip()}")

# SIGKILL leaves neither GHDL nor the folder, soon after.
for moment in [*(step / 100 for step in range(2, 14, 2)), "in GHDL"]:
    if os.path.exists("slow/ghdl.pid"):
        os.remove("slow/ghdl.pid")
    child = subprocess.Popen([WRAPPER], stdin=subprocess.PIPE, stdout=subprocess.PIPE, stderr=subprocess.DEVNULL, env=slow)
    child.stdin.write(whole)
    child.stdin.close()
    if moment != "in GHDL":
        time.sleep(moment)
    while moment == "in GHDL" and not os.path.exists("slow/ghdl.pid"):
        time.sleep(0.01)
    child.kill()
    assert child.wait() == -signal.SIGKILL and child.stdout.read() == b""
    until = time.monotonic() + 20
    while os.listdir(tmp) and time.monotonic() < until:
        time.sleep(0.01)
    check(("SIGKILL", moment), 0, 0)
    if os.path.exists("slow/ghdl.pid"):
        with open("slow/ghdl.pid") as file:
            assert not os.path.exists(f"/proc/{file.read().strip()}")

# The runner has gone: nobody reads the output any more.
if os.path.exists("slow/ghdl.pid"):
    os.remove("slow/ghdl.pid")
child = subprocess.Popen([WRAPPER], stdin=subprocess.PIPE, stdout=subprocess.PIPE, stderr=subprocess.DEVNULL, env=slow)
child.stdin.write(whole)
child.stdin.close()
while not os.path.exists("slow/ghdl.pid"):
    time.sleep(0.01)
child.stdout.close()
assert child.wait(20) == 128 + signal.SIGPIPE, child.returncode
with open("slow/ghdl.pid") as file:
    assert not os.path.exists(f"/proc/{file.read().strip()}")
