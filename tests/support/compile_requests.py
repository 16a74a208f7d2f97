"""Makes compile requests and hands them to a compiler, as the program does: the driver of the tests of wrappers."""

import os, struct, subprocess

# (or the folder of links by which they run elsewhere)
WRAPPERS = os.environ.get("WRAPPERS", os.path.join(os.environ["TOP"], "wrappers"))
WRAPPER = os.path.join(WRAPPERS, "ghdl_analyse")


def text(part):
    return struct.pack("<I", len(part)) + part


def fields(library, path, source, used=()):
    """The parts of a request; `used` has a library, a path and an artefact for each file that is depended on."""
    parts = [b"VRC1"]
    for part in [library, path, source]:
        parts += [struct.pack("<I", len(part)), part]
    parts.append(struct.pack("<I", len(used)))
    for part in (part for file in used for part in file):
        parts += [struct.pack("<I", len(part)), part]
    return parts


def compile_one(data, words=(), wrapper=(WRAPPER,), **settings):
    """Code, standard output and standard error of a wrapper over these bytes."""
    ran = subprocess.run([*wrapper, *words], input=data, capture_output=True, **settings)
    return ran.returncode, ran.stdout, ran.stderr


def closure(direct, name):
    """All files that a file depends on, by the files that each depends on directly."""
    found, left = set(), list(direct[name])
    while left:
        if (used := left.pop()) not in found:
            found.add(used)
            left += direct[used]
    return found


def compile_all(sources, direct, words=(), without=None):
    """Compiles files in the order of `sources`, whose names are pairs of a library and a path, each over the files that it
    depends on. `without` names a file and another one that isn't handed over for it. Gives the artefacts by name up to the
    first refused file, and that file with the text about it, or None."""
    made = {}
    for name, source in sources.items():
        wanted = closure(direct, name) - ({without[1]} if without and without[0] == name else set())
        used = [(*other, made[other]) for other in sources if other in wanted]
        code, said, _ = compile_one(b"".join(fields(*name, source, used)), words)
        if code != 0:
            return made, (name, code, said)
        made[name] = said
    return made, None
