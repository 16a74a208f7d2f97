"""Lists declared files by wrappers/vunit_data over the program: what it prints is by hand. Works in the present folder."""

import json, os, shutil, subprocess

TOP = os.environ["TOP"]
TOOL = os.path.join(TOP, "wrappers", "vunit_data")
BENCH = "entity {0} is generic (runner_cfg : string); end; architecture a of {0} is begin process begin {1} wait; end process; end;\n"


def bench(name, *cases):
    return BENCH.format(name, "".join(f'if run("{case}") then null; end if; ' for case in cases))


FILES = {"a.vhd": bench("tb_a", "one", "two"), "b.vhd": bench("tb_b"), "data/in.txt": "", "data/deep/in.csv": "", "data/.hidden.txt": "",
         "vunit_out/data/in.txt": "", "tb/\u00e9 [1].txt": "", "golden.txt": ""}


def check(words, wanted, *patterns, errors="", status=0, project=None):
    """Runs the tool over a project with these words of the simulator."""
    shutil.rmtree("p", ignore_errors=True)
    toml = f"simulator = {json.dumps(['ghdl_bench', *words])}\n[[library]]\nname = \"lib\"\nfiles = [\"*.vhd\"]\n"
    for path, text in {**FILES, **({"vunit.toml": toml} if project is None else project)}.items():
        os.makedirs(os.path.dirname(f"p/{path}") or "p", exist_ok=True)
        with open(f"p/{path}", "w", encoding="utf-8") as file:
            file.write(text)
    ran = subprocess.run([TOOL, *patterns], cwd="p", stdin=subprocess.DEVNULL, capture_output=True)
    own = [line for line in ran.stderr.decode().splitlines(keepends=True) if line.startswith("vunit_data: ")]
    got = ran.returncode, ran.stdout.decode(), "".join(own)
    assert got == (status, wanted, errors), f"{words} {patterns}: {got} and not {(status, wanted, errors)}"


def listed(*lines):
    return "".join(f"lib.{line}\n" for line in lines) + f"Listed {len(lines)} files\n"


check([], listed())
check(["--data="], listed())
check(["--cpu-limit=3", "-gn=1", "--data=golden.txt"], listed("tb_a, golden.txt", "tb_b, golden.txt"))
check(["--in=lib.tb_a:--data=data/**"], listed("tb_a, data/deep/in.csv", "tb_a, data/in.txt"))
check(["--in=*.two:--data=data/*.txt --data=**/*.txt", "--in=lib.tb_b:--data=**/*[1]*"],
      listed("tb_a, data/in.txt", "tb_a, golden.txt", "tb_a, tb/\u00e9 [1].txt", "tb_b, tb/\u00e9 [1].txt"))
check(["--in=*.all:--data=golden.txt"], listed("tb_b, golden.txt"))
check(["--data=golden.txt"], listed("tb_b, golden.txt"), "*.tb_b.*")
check(["--data=golden.txt"], listed("tb_a, golden.txt"), "*.two", "nothing")
check(["--data=golden.txt"], listed(), "nothing")

# What is misspelt is named.
check(["--data=golden.text"], listed(), status=1, errors="vunit_data: lib.tb_a: nothing matches golden.text\n"
      "vunit_data: lib.tb_b: nothing matches golden.text\n")
check(["--in=lib.tb_c:--data=golden.txt"], "", status=1, errors="vunit_data: --in=lib.tb_c:--data=golden.txt names no test\n")
check(["--data=../golden.txt"], "", status=1, errors="vunit_data: vunit.toml: --data=../golden.txt doesn't name files below the project\n")
check(["--in=lib.tb_a"], "", status=1, errors="vunit_data: vunit.toml: --in=lib.tb_a isn't --in=PATTERN:WORDS, of which each word begins "
      "with -\n")

# Without a vunit.toml no file is declared, and what the program refuses is handed on.
check([], listed(), project={"vunit.csv": "lib, a.vhd\nlib, b.vhd\n"})
check([], "vunit_run: no vunit.toml and no vunit.csv\n", status=1, project={})
