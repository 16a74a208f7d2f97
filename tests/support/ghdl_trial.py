"""What the tests share that have the program run benches with GHDL. They work in the present folder, which gets a TMPDIR of
its own. WRAPPERS may name another folder of wrappers, as one with links of their names."""

import json, os, shutil
from xml.sax.saxutils import escape

from trial import fail, run, toml

TOP = os.environ["TOP"]
TMP = os.path.abspath("tmp")
os.mkdir(TMP)
os.environ.update(PATH=os.pathsep.join([os.environ.get("WRAPPERS", f"{TOP}/wrappers"), os.environ["PATH"]]), TMPDIR=TMP)
BY_GHDL = ["ghdl_bench"]
SAID = {"p": "pass", "f": "fail", "s": "skip"}
IN_REPORT = {"p": "/>", "f": '>\n    <failure message="Failed"/>\n  </testcase>', "s": ">\n    <skipped/>\n  </testcase>"}


def with_ghdl(libraries, simulator=BY_GHDL):
    """The text of a project file: its libraries are a dictionary from names to patterns."""
    return toml(libraries, ["ghdl_analyse"], more=f"simulator = {json.dumps(simulator)}\n")


def summary(verdicts):
    counts = [f"{word} {verdicts.count(letter)} of {len(verdicts)}\n" for letter, word in SAID.items()]
    return "==== Summary\n" + "".join(counts) + ("All passed!\n" if set(verdicts) == {"p"} else "Some failed!\n")


def report(rows):
    """The report of cases, each of which has its bench, its name and its verdict first."""
    verdicts = "".join(row[2] for row in rows)
    cases = [f'  <testcase classname="{in_xml(bench)}" name="{in_xml(name)}"{IN_REPORT[verdict]}\n'
             for bench, name, verdict, *_ in rows]
    failed, skipped = verdicts.count("f"), verdicts.count("s")
    return ('<?xml version="1.0" encoding="utf-8"?>\n<testsuite name="testsuite"'
            f' tests="{len(rows)}" failures="{failed}" skipped="{skipped}" errors="0">\n{"".join(cases)}</testsuite>\n')


def in_xml(text):
    return escape(text, {'"': "&quot;", "'": "&apos;"})


def compare_runs(text, rows):
    """Compares what is printed of runs. A row has bench, case, verdict, and the text before its line: whole as a text, or parts
    of it as a list. Gives the fault, or None."""
    at = 0
    for bench, name, verdict, shown in rows:
        line = f"{SAID[verdict]} {bench}.{name}\n"
        begins = text.find(line, at)
        if begins < 0 or begins > at and text[begins - 1] != "\n":
            return f"no line {line}behind {text[:at][-300:]}: {text[at:][:3000]}"
        before = text[at:begins]
        if before != shown if isinstance(shown, str) else any(part not in before for part in shown):
            return f"before {line}stands {before}and not {shown}"
        at = begins + len(line)
    wanted = summary("".join(row[2] for row in rows))
    return None if text[at:] == wanted else f"the end is {text[at:]}and not {wanted}"


def check(name, folder, built, rows, *words):
    """Runs the program at both numbers of children at once, each over nothing that was built, and compares text, status and
    report. `built` has the files as lines name them."""
    for at_once in ("1", "64"):
        shutil.rmtree(f"{folder}/vunit_out", ignore_errors=True)
        status, text, error = run(folder, "-p", at_once, "-x", "out.xml", *words)
        compiled, _, ran = text.decode(errors="replace").partition("Compile passed\n")
        wrong = compare_runs(ran, rows)
        if sorted(compiled.splitlines()) != sorted(f"Compiling into {file} passed" for file in built):
            wrong = f"it compiled {compiled}"
        if status != (0 if all(row[2] == "p" for row in rows) else 1) or error or wrong:
            fail(f"{name}, -p {at_once}", f"status {status}, {wrong}, standard error {error}")
            continue
        with open(f"{folder}/out.xml", encoding="utf-8") as file:
            if (found := file.read()) != report(rows):
                fail(f"the report of {name}, -p {at_once}", f"{found}")
        if left := os.listdir(TMP):
            fail(f"{name}, -p {at_once}", f"it left {left}")
