"""What the tests of the program over wrappers/over_engine share: a place with a compiler that is reached by a link, and builds."""

import os
from engines import WRAPPER, Place
from trial import build_text, package, project, run, toml

# (a request is text from its third byte of four on)
COMPILER = """cat >request; grep -a -q 'package p[0-9]* is' request || { cat request; exit 9; }
[ -z "${LATE-}" ] || sleep "$LATE"
cksum <request; [ -z "${LONG-}" ] || head -c 200000 /dev/zero
"""


def place_of(name, engine, **settings):
    """A place whose `cluster` has a link of the compiler's name."""
    place = Place(name, engine, {"compile_it": COMPILER}, **settings)
    os.mkdir(place.path("cluster"))
    os.symlink(WRAPPER, place.path("cluster", "compile_it"))
    return place


def build(place, status, text, *words, over_engine=True, said=b""):
    """A run of the program, with the compiler here or over the engine."""
    folders = [place.path("cluster")] if over_engine else []
    given = {**place.environment, "PATH": os.pathsep.join([*folders, place.environment["PATH"]])}
    found = run(place.path("project"), "--compile", *words, env=given)
    assert found[:2] == (status, text.encode()) and said in found[2], f"{place.folder} {words}: it is {found}"
    place.seconds_until_nothing_is_left()


def make(place, count, more=""):
    files = {f"p{at}.vhd": package(f"p{at}") + more for at in range(count)}
    project(place.path("project"), {**files, "vunit.toml": toml({"lib": ["*.vhd"]}, ["compile_it"])})
    return build_text([(b"lib", name.encode()) for name in sorted(files)])
