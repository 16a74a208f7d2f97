"""Compares benches over restored libraries with the same benches over libraries that plain GHDL made: the same code and the same
text, over projects made from seeds. Works in the present folder."""

import os, subprocess
from bench_requests import Run, build
from seeded_project import Project

tmp = os.path.abspath("tmp")
os.mkdir(tmp)
os.environ["TMPDIR"] = tmp
LINE = b"ghdl_bench: the bench ended without test_runner_setup: there are no results\n"
BENCH = """library low, mid, top;
entity {name} is
  generic (runner_cfg : string);
end entity;
architecture sim of {name} is
begin
{statements}
end architecture;
"""


def plain(*words):
    ran = subprocess.run(["ghdl", *words], cwd="plain", stdin=subprocess.DEVNULL, stdout=subprocess.PIPE, stderr=subprocess.STDOUT)
    return ran.returncode, ran.stdout


def told(code, said):
    """What is compared: of a report of a fault inside GHDL, which has words and addresses, where it is. What the wrapper says of it
    follows all that GHDL has said."""
    lines = said.partition(b"(all of the output is in ")[0].splitlines()
    return code, [line for line in lines if line.startswith(b"raised ")] if b"GHDL Bug occurred" in said else lines


def compare(seed, units):
    os.mkdir("plain")
    project, files = Project(seed, 0), []
    for number in range(units):
        library, text = project.unit()
        files.append((library, f"{library}/{number:02}.vhd", text))
    benches = [f"  u : entity {library}.{entity}({architecture});" for library, entity, architecture in project.architectures]
    benches += [f"  u : configuration {library}.{name};" for library, name in project.configurations]
    benches += [f"  assert false report to_string({library}.{name}.c) severity warning;" for library, name in project.constants]
    for number, statements in enumerate(benches):
        files.append(("tb_lib", f"tb/{number}.vhd", BENCH.format(name=f"tb_{number}", statements=statements)))
    for library in ["low", "mid", "top"]:
        # (a clause of a library of which there is nothing)
        with open(f"plain/{library}-obj08.cf", "w") as file:
            file.write("v 4\n")
    for library, path, text in files:
        os.makedirs(os.path.dirname(f"plain/{path}"), exist_ok=True)
        with open(f"plain/{path}", "w") as file:
            file.write(text)
        code, said = plain("-a", "--std=08", "-P.", f"--work={library}", "--workdir=.", path)
        assert code == 0, said
    built = build([(library.encode(), path.encode(), text.encode()) for library, path, text in files])
    for number in range(len(benches)):
        run = Run(built, b"tb_lib", b"tb_%d" % number, b"sim", [])
        code, output, _ = run.start(["--cpu-limit=20"])
        wanted = plain("-r", "--std=08", "-P.", "--work=tb_lib", "--workdir=.", f"tb_{number}", "sim", "-grunner_cfg=x",
                       "--assert-level=error")
        if wanted[0] == 0:
            wanted = 0, wanted[1] + LINE
        assert told(code, output) == told(*wanted), f"seed {seed}, {benches[number]}: {(code, output)} and not {wanted}"
        assert not os.listdir(tmp), os.listdir(tmp)
    os.rename("plain", f"seed{seed}")
    return len(benches)


assert sum(compare(seed, 16) for seed in range(4)) > 20
