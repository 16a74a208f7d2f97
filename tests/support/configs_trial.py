"""What the tests of vunit_configs share: a project whose simulator does what its words say, in the present folder, and texts and
reports by hand."""

import json, os, shutil, subprocess, sys, time

TOP, PROGRAM = os.environ["TOP"], os.environ["VUNIT_RUN"]
TOOL = os.path.join(TOP, "wrappers", "vunit_configs")
HERE = os.getcwd()
TMP = os.path.join(HERE, "tmp")
for folder in ("bin", "tmp"):
    os.mkdir(folder)
os.environ.update(PATH=os.pathsep.join([f"{HERE}/bin", os.environ["PATH"]]), TMPDIR=TMP)
with open("bin/plays", "w", encoding="utf-8") as file:
    file.write(f'#!/bin/sh\nexec "{sys.executable}" "{TOP}/tests/support/playing_simulator.py" "$@"\n')
os.chmod("bin/plays", 0o755)


def bench(name, *cases, in_one=False):
    calls = "".join(f'if run("{case}") then null; end if; ' for case in cases)
    comment = "-- vunit: run_all_in_same_sim\n" if in_one else ""
    return (f"{comment}entity {name} is generic (runner_cfg : string); end;\narchitecture a of {name} is begin process begin "
            f"{calls}wait; end process; end;\n")


def configuration(bench, name, **keys):
    lines = [f"bench = {json.dumps(bench)}", f"name = {json.dumps(name, ensure_ascii=False)}"]
    lines += [f"{key} = {value if key == 'generics' else json.dumps(value, ensure_ascii=False)}" for key, value in keys.items()]
    return "[[configuration]]\n" + "\n".join(lines) + "\n"


BENCHES = {"one.vhd": bench("tb_one", "a", "b", in_one=True), "other.vhd": bench("tb_other", "x", "y"), "whole.vhd": bench("tb_whole"),
           "wide.vhd": bench("tb_wide", "left", "right")}
BUILT = "".join(f"Compiling into lib: {name} passed\n" for name in sorted(BENCHES)) + "Compile passed\n"
FRESH = "Re-compile not needed\n"


def project(table, simulator=("plays",), files=BENCHES):
    shutil.rmtree("p", ignore_errors=True)
    os.mkdir("p")
    toml = f"simulator = {json.dumps(list(simulator))}\n[[library]]\nname = \"lib\"\nfiles = [\"*.vhd\"]\n"
    for name, text in {**files, "vunit.toml": toml, "table.toml": table}.items():
        with open(f"p/{name}", "w", encoding="utf-8") as file:
            file.write(text)


def start(*words, tool=(TOOL, "table.toml"), seconds=120, **settings):
    return subprocess.run([*tool, *words], cwd="p", stdin=subprocess.DEVNULL, capture_output=True, timeout=seconds, **settings)


def check(name, ran, status, text=None, error=None, holds=(), is_long=False):
    """Compares status, standard output and the lines on standard error that are the tool's; of those on how far it is, which any run
    has on a slow machine, only where `is_long` is said."""
    output, errors = ran.stdout.decode(), ran.stderr.decode()
    lines = [line for line in errors.splitlines(keepends=True) if line.startswith("vunit_configs: ")]
    own = "".join(line for line in lines if is_long or not line.startswith("vunit_configs: ["))
    said = f"{name}: status {ran.returncode}:\n{output}\nand on standard error:\n{errors}"
    assert ran.returncode == status, said
    assert text is None or output == text, f"{said}\nand not\n{text}"
    assert error is None or own == error, f"{said}\nand not\n{error}"
    assert "Traceback" not in errors and all(part in output for part in holds), said
    left = time.monotonic() + 20
    while os.listdir(TMP) and time.monotonic() < left:
        # (the process that removes a folder ends after the tool)
        time.sleep(0.01)
    assert not os.listdir(TMP), f"{name}: left behind {os.listdir(TMP)}"


def tests(*lines):
    """The text of verdicts: each line is a letter and a name, or a shown line before one, after a blank."""
    verdicts = "".join(line[0] for line in lines if line[0] != " ")
    words = {"p": "pass", "f": "fail", "s": "skip"}
    shown = "".join(line[1:] + "\n" if line[0] == " " else f"{words[line[0]]} lib.{line[1:]}\n" for line in lines)
    counts = "".join(f"{word} {verdicts.count(letter)} of {len(verdicts)}\n" for letter, word in words.items())
    return shown + "==== Summary\n" + counts + ("All passed!\n" if set(verdicts) == {"p"} else "Some failed!\n")


def listing(names):
    return "".join(f"lib.{name}\n" for name in names) + f"Listed {len(names)} tests\n"


def junit(*rows):
    """A report by hand: a letter of each case, its bench with a configuration behind a dot, and its name. The class is the bench."""
    verdicts = "".join(row[0] for row in rows)
    ends = {"p": "/>", "f": '>\n    <failure message="Failed"/>\n  </testcase>', "s": ">\n    <skipped/>\n  </testcase>"}
    lines = []
    for letter, bench_and_configuration, case in rows:
        bench_name, dot, name = bench_and_configuration.partition(".")
        lines.append(f'  <testcase classname="lib.{bench_name}" name="{name}{dot}{case}"{ends[letter]}\n')
    return ('<?xml version="1.0" encoding="utf-8"?>\n<testsuite name="testsuite" tests="%d" failures="%d" skipped="%d" errors="0">\n'
            % (len(rows), verdicts.count("f"), verdicts.count("s")) + "".join(lines) + "</testsuite>\n")


def read(path):
    with open(f"p/{path}", encoding="utf-8") as file:
        return file.read()
