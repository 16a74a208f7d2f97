#!/bin/sh
# Small projects by chance, compared with a plain program of the rules: refusals, warnings, the order of files, the files that
# each compiler gets, and the compilations after an edit.
. "$TOP/tests/support/needs.sh"
needs python3
PYTHONPATH=$TOP/tests/support exec python3 -B - <<'END'
import re

import plain_rules, random_projects, store_reader
from trial import COMPILER, build_text, end, environment, expect, fail, project, requests_in, write

SEEDS = range(200)


def bytes_of(names):
    return [tuple(part.encode() for part in name) for name in names]


def handed():
    """The files that were compiled, and with each those that it was handed."""
    read = [store_reader.read_request(data) for data in requests_in("requests")]
    return {(library, path): [other[:2] for other in others] for library, path, _, others in read}


def place_of(fault, texts):
    """The line for editors, where a fault is of an offset in a file."""
    found = re.fullmatch(r"\w+, (.*): .* at (\d+)", fault)
    if not found:
        return ""
    before = texts[found[1]].encode()[:int(found[2])]
    return f"{found[1]}:{before.count(10) + 1}:{len(before) - before.rfind(10)}: {fault}\n"


def check(seed, given):
    files = {"vunit.toml": f"compiler={COMPILER}\n".replace("'", '"') + random_projects.toml_of(given), **given.texts}
    project("project", files)
    name = f"project {seed}"
    try:
        reading = plain_rules.read(given)
    except plain_rules.Refused as fault:
        words = ["--compile", "-f"][seed % 2]
        error = place_of(str(fault), given.texts)
        expect(name, "project", 1, f"vunit_run: {fault}\n", words, error=error, env=environment("requests"))
        if requests_in("requests"):
            fail(name, "something was started")
        return
    order = bytes_of(reading.files)
    listing = "".join(f"{library}, {path}\n" for library, path in reading.files)
    expect(f"{name} is listed", "project", 0, f"{listing}Listed {len(order)} files\n", "-f")
    warnings = "".join(f"{line}\n" for line in reading.warnings)
    slots = str(1 + seed % 4)
    expect(f"{name} is built", "project", 0, warnings + build_text(order), "--compile", "-p", slots, env=environment("requests"))
    wanted = dict(zip(order, map(bytes_of, reading.closures)))
    if handed() != wanted:
        fail(f"{name} is built", f"compilers were handed {handed()}\nand not {wanted}")
    if seed % 2:
        return
    path = reading.files[seed % len(order)][1].encode()
    write("project", {path.decode(): given.texts[path.decode()] + "-- more\n"})
    again = [one for one in order if path in [other for _, other in [one, *wanted[one]]]]
    expect(f"{name} is built again", "project", 0, warnings + build_text(again), "--compile", env=environment("requests"))
    if handed() != {one: wanted[one] for one in again}:
        fail(f"{name} is built again", f"compilers were handed {handed()}")


for seed in SEEDS:
    check(seed, random_projects.make(seed))
end()
END
