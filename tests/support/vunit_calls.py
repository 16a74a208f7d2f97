"""The calls of VUnit's interface that wrappers/vunit_lib has, by the rows of tests/data/vunit_calls: each compiles, passes and
fails as its row says, with the text of the log. Works in the present folder.

usage: vunit_calls.py [PATTERN ..]     tries all rows, or those whose names match a pattern
       vunit_calls.py --table          prints the table of docs/user/MOVING.md

A file has the rows of one package. A row begins with `[NUMBER] CALL` and has lines `KEY: VALUE`. A value goes on in the lines
below it that begin with four blanks. Lines with `#` are comments.

    use       every day, often or seldom
    context   what follows `context vunit_lib.vunit_context;`
    bare      as context, and that context is left out
    signals   declarations of the architecture
    beside    concurrent statements
    declare   declarations of the process that runs the cases
    setup     statements between test_runner_setup and the loop of test_suite
    cleanup   what stands for `test_runner_cleanup(runner);`
    words     words of the simulator, with blanks between them
    call      the statements that VUnit's users write: they compile, and pass
    passes    statements of a case that passes, in a simulation of its own
    fails     statements of a case that fails, in a simulation of its own
    refused   statements with which the bench isn't compiled, for a call that VUnit has and the library hasn't
    differs   what is otherwise than in VUnit, for the table

Below `passes`, `fails` and `refused` stands the expected text:

    > TEXT         a line of the log; all of them, in order. Without such a line the log is empty. (`call` may log anything.)
    ends: 3 ns     the time at which the simulation ends, as GHDL writes it
    file: NAME     a file in the folder of the run, whose lines follow as `> TEXT`

For `refused`, each `> TEXT` is part of what the compiler says. Each bench has the signals and variables of `BENCH` below.
"""

import fnmatch, os, re, sys
from bench_requests import Run
from compile_requests import compile_one, fields
from concurrent.futures import ThreadPoolExecutor

DATA = os.path.join(os.environ["TOP"], "tests/data/vunit_calls")
USES = ["every day", "often", "seldom"]
SINGLE = ["use", "context", "bare", "signals", "beside", "declare", "setup", "cleanup", "words", "call", "differs"]
CASES = ["passes", "fails", "refused"]
# Lines of output.txt that GHDL writes.
BY_GHDL = re.compile(r"simulation finished @|\S+:\d+:\d+:@\S+:\((report|assertion) |\S*ghdl\S*:(error|info): |in process |  from: ")

BENCH = """library ieee;
use ieee.std_logic_1164.all;
use ieee.numeric_std.all;
library vunit_lib;
%(context)s
entity %(name)s is
  generic (runner_cfg : string);
end entity;
architecture sim of %(name)s is
  signal clk, en, st, en2, sl : std_logic := '0';
  signal slv : std_logic_vector(7 downto 0) := x"00";
  signal uns : unsigned(7 downto 0) := x"00";
  signal sgn : signed(7 downto 0) := x"00";
  signal seq : std_logic_vector(0 to 2) := "000";
  signal five : integer := 5;
%(signals)s
begin
  main : process
    variable ok : boolean;
%(declare)s
  begin
    test_runner_setup(runner, runner_cfg);
%(setup)s
    while test_suite loop
%(cases)s
    end loop;
    %(cleanup)s
  end process;
%(beside)s
end architecture;
"""


class Case:
    """What one simulation does and what is seen of it."""

    def __init__(self, kind, statements):
        self.kind, self.statements, self.log, self.end, self.files = kind, statements, [], None, {}


class Row:
    """One call. `parts` has the values of its single keys."""

    def __init__(self, package, position, number, call):
        self.package, self.number, self.name = package, number, call
        self.bench_name = f"tb_{package}_{position}"
        self.parts, self.cases = {}, []

    def title(self):
        return f"[{self.number}] {self.name}"

    def bench(self, cases):
        parts = {key: self.parts.get(key, "") for key in ("signals", "declare", "setup", "beside")}
        parts["context"] = self.parts.get("bare") or f"context vunit_lib.vunit_context;\n{self.parts.get('context', '')}"
        parts["cleanup"] = self.parts.get("cleanup", "test_runner_cleanup(runner);")
        choices = [f"      {'els' if at else ''}if run(\"{at}\") then\n        {case.statements}" for at, case in enumerate(cases)]
        return BENCH % {**parts, "name": self.bench_name, "cases": "\n".join(choices) + "\n      end if;"}


def read_rows(package, lines):
    rows, target, key = [], None, None
    for at, line in enumerate(lines, 1):
        line = line.rstrip("\n")
        if not line.strip() or line.startswith("#"):
            continue
        if line.startswith("["):
            number, _, call = line[1:].partition("] ")
            rows.append(row := Row(package, len(rows), number, call))
            shown = case = None
        elif line.startswith("    "):
            if key in CASES:
                case.statements += "\n        " + line.strip()
            else:
                row.parts[key] += "\n" + line[4:]
        elif line.startswith(">"):
            shown.append(line[2:])
        else:
            key, colon, value = line.partition(":")
            value = value.strip()
            if key in SINGLE and colon and key not in row.parts:
                row.parts[key] = value
            elif key in CASES and colon:
                row.cases.append(case := Case(key, value))
                shown = case.log
            elif key == "ends":
                case.end = value
            elif key == "file":
                shown = case.files.setdefault(value, [])
            else:
                sys.exit(f"{package}, line {at}: {line}")
    return rows


def all_rows():
    rows = []
    for name in sorted(os.listdir(DATA)):
        with open(os.path.join(DATA, name), encoding="utf-8") as file:
            rows += read_rows(name[:-4], file)
    for row in rows:
        assert row.parts.get("use") in USES, f"{row.title()}: how often is it used?"
        kinds = {case.kind for case in row.cases}
        assert kinds == {"refused"} or kinds == {"passes", "fails"} and "call" in row.parts, f"{row.title()}: tried both ways?"
    numbers = [row.number for row in rows if row.number != "+"]
    assert len(numbers) == len(set(numbers)), numbers
    return rows


def log_of(text):
    return [line for line in text.splitlines() if not BY_GHDL.match(line)]


def wrong_in(row, built, case, at):
    """The fault of one simulation, or nothing."""
    bench = row.bench_name.encode()
    run = Run(built, b"tb_lib", bench, b"sim", [b"%d" % at])
    run.start(row.parts.get("words", "").split())
    with open(run.folder + b"output.txt", encoding="latin-1") as file:
        output = file.read()
    if run.verdicts() != ("f" if case.kind == "fails" else "p"):
        return f"the verdict isn't {case.kind}\n{output}"
    if case.kind != "call" and (log := log_of(output)) != case.log:
        return "\n".join(["the log is", *log, "and not", *case.log])
    if case.end and f"simulation finished @{case.end.replace(' ', '')} " not in output:
        return f"the end isn't at {case.end}\n{output}"
    for name, lines in case.files.items():
        with open(run.folder + name.encode(), encoding="latin-1") as file:
            if (found := file.read()) != "".join(line + "\n" for line in lines):
                return "\n".join([f"the file {name} has", found, "and not", *lines])
    return ""


def try_row(row):
    """The faults of a row: a text for each case of it."""
    if row.cases[0].kind == "refused":
        return [wrong for case in row.cases if (wrong := wrong_in_refusal(row, case))]
    cases = [Case("call", row.parts["call"]), *row.cases]
    code, built, said = compiled(row, cases)
    if code != 0:
        return [f"{row.title()} isn't compiled\n{said}"]
    files = [(b"tb_lib", b"tb.vhd", built)]
    return [f"{row.title()}: {case.kind}: {case.statements}\n{wrong}" for at, case in enumerate(cases)
            if (wrong := wrong_in(row, files, case, at))]


def compiled(row, cases):
    """The code of the compiler, the artefact, and what it says."""
    code, answer, said = compile_one(b"".join(fields(b"tb_lib", b"tb.vhd", row.bench(cases).encode("latin-1"), [])))
    return code, answer, (answer + said).decode("latin-1") if code else ""


def wrong_in_refusal(row, case):
    code, _, said = compiled(row, [case])
    if code == 0 or any(part not in said for part in case.log):
        return f"{row.title()}: refused with {code} and\n{said}\nwithout one of " + "\n".join(case.log)
    return ""


def cell(text):
    return text.replace("|", "\\|")


def table(rows):
    """The tables of docs/user/MOVING.md: how many calls of each package are here, and the missing or different ones."""
    lines = ["| Package | Calls that are there |", "|---|---|"]
    for package in dict.fromkeys(row.package for row in rows):
        own = [row for row in rows if row.package == package]
        here = [row for row in own if row.cases[0].kind != "refused"]
        lines.append(f"| `{package}` | {len(here)} of {len(own)} |")
    lines += ["", "| Call | What is missing or different |", "|---|---|"]
    lines += [f"| `{cell(row.name)}` | {cell(row.parts['differs'])} |" for row in rows if "differs" in row.parts]
    return "\n".join(lines)


def main(words):
    rows = all_rows()
    if words == ["--table"]:
        print(table(rows))
        return
    with open(os.path.join(os.environ["TOP"], "docs/user/MOVING.md"), encoding="utf-8") as file:
        assert table(rows) in file.read(), "docs/user/MOVING.md hasn't the table of these rows: --table prints it"
    tmp = os.path.abspath("tmp")
    os.mkdir(tmp)
    os.environ["TMPDIR"] = tmp
    chosen = [row for row in rows if not words or any(fnmatch.fnmatch(row.title(), word) or row.package == word for word in words)]
    with ThreadPoolExecutor(4) as pool:
        wrong = [text for texts in pool.map(try_row, chosen) for text in texts]
    print("\n\n".join(wrong))
    assert not os.listdir(tmp), os.listdir(tmp)
    assert chosen and not wrong, f"{len(wrong)} cases of {len(chosen)} rows are wrong"


main(sys.argv[1:])
