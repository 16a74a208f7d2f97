"""The program builds with GHDL over a cache: second clones and switched branches start no GHDL, and nothing is a hit that rests on other
tools, libraries or words. Works in the present folder."""

import os, shutil, subprocess, sys, zlib
from cache_clones import Team, forget, ghdl_by_hand
from cache_places import WRAPPERS, write_script
from compile_requests import fields
from engines import all_at_once
from store_reader import records_of
from trial import toml, write

FILES = {
    "src/a.vhd": "-- the first\npackage a is\n  constant c : integer := 1;\nend package a;\n",
    "src/b.vhd": "use work.a.all;\npackage b is\n  constant d : integer := c + 1;\nend package b;\n",
    "src/c.vhd": "use work.b.all;\nentity c is\n  port (o : out integer);\nend entity c;\n"
                 "architecture rtl of c is\nbegin\n  o <= d;\nend architecture rtl;\n",
    "src/d.vhd": "package d is\nend package d;\n",
}
PROJECT = {"vunit.toml": toml({"lib": ["src/*.vhd"]}, ["ghdl_analyse"]), **FILES}
BUILT = "".join(f"Compiling into lib: src/{name}.vhd passed\n" for name in "abcd") + "Compile passed\n"


def second_clone():
    team = Team("second")
    first, second = team.clone("first", PROJECT), team.clone("elsewhere/and/deeper", PROJECT)
    said = team.build(first, 4)
    assert sorted(said.decode().splitlines()) == sorted(BUILT.splitlines()), said
    assert sorted(team.build(second, 0).splitlines()) == sorted(said.splitlines())
    assert sorted(records_of(first)) == sorted(records_of(second)), "the records differ"
    # (what is remembered is the same with the cache and without)
    for cached in False, True:
        assert team.build(second, 0, cached=cached) == b"Re-compile not needed\n"
    forget(second)
    team.build(second, 4, cached=False)
    assert sorted(records_of(first)) == sorted(records_of(second)), "the records differ without the cache"
    assert team.build(second, 0) == b"Re-compile not needed\n"


def switched_branch():
    team = Team("branches")
    folder = team.clone("clone", PROJECT)
    team.build(folder, 4)
    branch = {"src/a.vhd": FILES["src/a.vhd"].replace(":= 1", ":= 5"), "src/d.vhd": FILES["src/d.vhd"].replace("is", "is\n")}
    write(folder, branch)
    # (a new value of a constant changes all that use it)
    team.build(folder, 4)
    for files in FILES, branch, FILES:
        write(folder, files)
        assert team.build(folder, 0).count(b" passed\n") == 5
    for files in branch, FILES:
        write(folder, files)
        forget(folder)
        team.build(folder, 0)


def changed_comment():
    team = Team("comment")
    folder, other = team.clone("clone", PROJECT), team.clone("other", PROJECT)
    team.build(folder, 4)
    changed = {"src/a.vhd": FILES["src/a.vhd"].replace("the first", "another")}
    write(folder, changed)
    team.build(folder, 1)
    write(other, changed)
    team.build(other, 0)


def other_tools():
    """Another ghdl, another vunit_lib, another kind of word, and back."""
    team = Team("tools")
    copy = team.path("wrappers")
    shutil.copytree(WRAPPERS, copy, ignore=shutil.ignore_patterns("__pycache__"))
    clones = iter(range(100))

    def build(starts, **settings):
        team.build(team.clone(f"clone_{next(clones)}", PROJECT), starts, **settings)

    build(4)
    team.put_ghdl("another one")
    build(4)
    team.put_ghdl("")
    build(0)
    # (the same files elsewhere are the same tools)
    team.link(copy)
    build(0)
    path = os.path.join(copy, "vunit_lib", "run_pkg.vhd")
    with open(path, "a") as file:
        file.write("-- another one\n")
    build(4)
    build(0)
    # (a tool that takes no part)
    with open(os.path.join(copy, "vunit_report.py"), "a") as file:
        file.write("# another one\n")
    build(0)
    with open(os.path.join(copy, "ghdl_library.py"), "a") as file:
        file.write("# another one\n")
    build(4)
    team.link(WRAPPERS)
    build(0)


def modules_in_keys():
    """A key rests on each module of the wrappers that a start loads."""
    team = Team("modules")
    data = b"".join(fields(b"lib", b"a.vhd", b"package a is\nend package a;\n"))
    for name, code in ("ghdl_analyse", 0), ("ghdl_bench", 2):
        said = subprocess.run([os.path.join(WRAPPERS, name), "--cache-key"], capture_output=True, env=team.environment(), check=True).stdout
        rests = {os.path.basename(line.split(b" ")[-1]).decode() for line in said.split(b"\n") if line.startswith(b"rests ")}
        assert {name, "over_cache", "over_cache_hit.c", "start_python.sh", "start_module.py"} <= rests, rests
        for words in (name, ""), ("over_cache", "", name):
            ran = subprocess.run([sys.executable, "-IS", "-X", "importtime", os.path.join(WRAPPERS, "start_module.py"), *words], input=data,
                                 capture_output=True, env=team.environment())
            assert ran.returncode == code, ran
            loaded = {line.split(b"|")[-1].strip().decode() + ".py" for line in ran.stderr.split(b"\n") if line.startswith(b"import time:")}
            own = loaded & {*os.listdir(WRAPPERS)}
            assert name + ".py" in own and own <= rests, f"{name}: {own - rests}"


def libraries_beside():
    """What lies below a -P, of which a request has nothing but the word."""
    team = Team("vendor")
    uses = {"vunit.toml": toml({"lib": ["*.vhd"]}, ["ghdl_analyse", "-Pvendor"], more='external = ["parts"]\n'),
            "u.vhd": "library parts;\nuse parts.numbers.all;\npackage u is\n  constant c : integer := number;\nend package u;\n"}
    for name, number, starts in ("first", 1, 1), ("second", 1, 0), ("third", 2, 1), ("fourth", 2, 0):
        folder = team.clone(name, uses)
        os.mkdir(os.path.join(folder, "vendor"))
        write(folder, {"vendor/numbers.vhd": f"package numbers is\n  constant number : integer := {number};\nend package numbers;\n"})
        if starts:
            ghdl_by_hand(os.path.join(folder, "vendor"), "-a", "--std=08", "--work=parts", "numbers.vhd")
        else:
            # (as a tool that keeps times copies it)
            shutil.rmtree(os.path.join(folder, "vendor"))
            shutil.copytree(os.path.join(team.folder, {"second": "first", "fourth": "third"}[name], "vendor"),
                            os.path.join(folder, "vendor"))
        team.build(folder, starts)
    # (a change within the folder is seen at once)
    write(folder, {"vendor/numbers.vhd": "package numbers is\n  constant number : integer := 3;\nend package numbers;\n"})
    ghdl_by_hand(os.path.join(folder, "vendor"), "-a", "--std=08", "--work=parts", "numbers.vhd")
    forget(folder)
    team.build(folder, 1)


def before_an_engine():
    """over_cache before over_engine before ghdl_analyse."""
    team = Team("engine")
    os.mkdir(team.path("cluster"))
    os.symlink(os.path.join(WRAPPERS, "over_engine"), team.path("cluster", "ghdl_analyse"))
    write_script(team.path("engine"), f'#!/bin/sh\necho engine >>{team.path("engines")}\nexec "$@"\n')
    settings = {"between": [team.path("cluster")], "OVER_ENGINE": team.path("engine")}
    first, second = team.clone("first", PROJECT), team.clone("second", PROJECT)
    team.build(first, 4, **settings)
    with open(team.path("engines")) as file:
        assert file.read().count("engine") == 4
    os.unlink(team.path("engines"))
    team.build(second, 0, **settings)
    assert not os.path.exists(team.path("engines")), "the engine was started"
    assert sorted(records_of(first)) == sorted(records_of(second))
    # (it is the same command without the engine)
    team.build(team.clone("third", PROJECT), 0)


OTHER_ZLIB = """import sys, zlib
compress = zlib.compress
zlib.compress = lambda data, level: compress(data, 1)
sys.path.insert(0, sys.argv.pop(1))
module = __import__(sys.argv.pop(1))
module.main()
"""


def another_zlib():
    """A stand-in for another zlib: the same sources, compressed to other bytes."""
    team = Team("zlib")
    text = "package a is\n" + "".join(f"  constant c{at} : integer := {at * at};\n" for at in range(200)) + "end package a;\n"
    first = b"".join(fields(b"lib", b"a.vhd", text.encode()))

    def by(module, data, *words):
        ran = subprocess.run([sys.executable, "-IS", "-c", OTHER_ZLIB, WRAPPERS, module, *words], input=data, capture_output=True,
                             env=team.environment())
        assert ran.returncode == 0, ran
        return ran.stdout

    def usual(data, name="links"):
        command = team.path("links", "ghdl_analyse") if name == "links" else os.path.join(WRAPPERS, "ghdl_analyse")
        ran = subprocess.run([command], input=data, capture_output=True, env=team.environment())
        assert ran.returncode == 0, ran
        return ran.stdout

    other, own = by("ghdl_analyse", first), usual(first, "alone")
    heads, sources = zip(*(made.split(b"\n\n", 1) for made in (other, own)))
    assert other != own and heads[0] == heads[1] and zlib.decompress(sources[0]) == zlib.decompress(sources[1])
    # (each can be used in place of the other one)
    over = [b"".join(fields(b"lib", b"b.vhd", b"use work.a.all;\npackage b is\nend package b;\n", [(b"lib", b"a.vhd", made)]))
            for made in (other, own)]
    assert by("ghdl_analyse", over[1]).split(b"\n\n")[0] == usual(over[0], "alone").split(b"\n\n")[0]
    # (who asks the cache gets the bytes that were there first, and so all above them)
    team.starts()
    assert by("over_cache", first, "ghdl_analyse") == other and team.starts() == 1
    assert usual(first) == other and team.starts() == 0
    by("over_cache", over[0], "ghdl_analyse")
    assert team.starts() == 1
    usual(over[0])
    assert team.starts() == 0
    usual(over[1])
    assert team.starts() == 1


works = [second_clone, switched_branch, changed_comment, other_tools, modules_in_keys, libraries_beside, before_an_engine, another_zlib]
# (words name some of them)
all_at_once([work for work in works if work.__name__ in (sys.argv[1:] or [work.__name__])], 3)
