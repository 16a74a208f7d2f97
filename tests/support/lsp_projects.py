"""What `vunit_lsp --write-vhdl-ls` and `--write-hdl-prj` write, beside files that were written by hand from the forms of vhdl_ls and GHDL-LS."""

import json, os, subprocess, tomllib

from lsp_trial import SERVER, environment
from trial import end, fail, package, project

TOML = """compiler = ["ghdl_analyse", "--std=93", "-frelaxed"]

[[library]]
name = "Base"
files = ["b*.vhd"]

[[library]]
name = "lib"
files = ["sub/*.vhd"]
options = ["-fexplicit"]
"""
# (a and c use what b has, so b comes first)
FILES = {"vunit.toml": TOML, "b1.vhd": package("b"), "sub/a [1].vhd": package("a", "base.b"), 'sub/c é$x"*.vhd': package("c", "base.b")}
VHDL_LS = """standard = "1993"

[libraries]
base.files = [
  "b1.vhd",
]
lib.files = [
  "sub/a [[]1].vhd",
  "sub/c é[$]x\\"[*].vhd",
]
"""
HDL_PRJ = {
    "options": {"ghdl_analysis": ["--std=93", "-frelaxed"]},
    "files": [{"file": "b1.vhd", "language": "vhdl", "library": "base"},
              {"file": "sub/a [1].vhd", "language": "vhdl", "library": "lib"},
              {"file": 'sub/c é$x"*.vhd', "language": "vhdl", "library": "lib"}],
}
LIST = {"vunit.csv": "lib,b.vhd\nlib2,a.vhd\n", "a.vhd": "library vunit_lib;\npackage a is\nend;\n", "b.vhd": package("b")}


def write(word, path):
    ran = subprocess.run([SERVER, word, path], cwd="project", env=environment(), stdin=subprocess.DEVNULL, capture_output=True, timeout=60)
    return ran.returncode, ran.stdout, ran.stderr


def written(word, path="../written"):
    """The written file, as its text; the fault without one."""
    ran = write(word, path)
    if ran != (0, b"", b""):
        fail(word, ran)
        return ""
    with open(os.path.join("project", path), encoding="utf-8") as file:
        return file.read()


def same(name, found, wanted):
    if found != wanted:
        fail(name, f"it is {found}\nand not {wanted}")


project("project", FILES)
text = written("--write-vhdl-ls", "vhdl_ls.toml")
same("vhdl_ls.toml", text.partition("\n")[2], VHDL_LS)
same("vhdl_ls.toml as TOML", tomllib.loads(text)["libraries"]["lib"]["files"], ["sub/a [[]1].vhd", 'sub/c é[$]x"[*].vhd'])
same("hdl-prj.json", json.loads(written("--write-hdl-prj", "hdl-prj.json")), HDL_PRJ)
text = written("--write-vhdl-ls", "sub/vhdl_ls.toml")
same("a file in another folder", tomllib.loads(text)["libraries"]["base"]["files"], ["../b1.vhd"])
project("project", LIST)
folder = os.path.join(os.environ["TOP"], "wrappers", "vunit_lib")
shipped = sorted(os.path.join(folder, name) for name in os.listdir(folder) if name.endswith(".vhd"))
found = tomllib.loads(written("--write-vhdl-ls", "vhdl_ls.toml"))
same("a list, and vunit_lib", found, {"standard": "2008", "libraries": {"lib": {"files": ["b.vhd"]}, "lib2": {"files": ["a.vhd"]},
                                                                       "vunit_lib": {"files": shipped, "is_third_party": True}}})
same("its hdl-prj.json", [one["file"] for one in json.loads(written("--write-hdl-prj"))["files"]],
     [*shipped, *(os.path.relpath(os.path.join("project", name), os.curdir) for name in ("b.vhd", "a.vhd"))])
project("project", {"vunit.csv": "lib,b.vhd\n"})
same("a refused project", write("--write-vhdl-ls", "x.toml"), (1, b"vunit_run: lib, b.vhd is absent\n", b""))
same("no file", os.path.exists("project/x.toml"), False)
project("project", LIST)
same("a folder that isn't there", write("--write-vhdl-ls", "no/such/x.toml"), (3, b"", b"vunit_lsp: no/such/x.toml.part: No such file or directory\n"))
for words in (["--write-vhdl-ls"], ["--frob"], ["x", "y", "z"]):
    ran = subprocess.run([SERVER, *words], stdin=subprocess.DEVNULL, capture_output=True, timeout=60)
    same(f"the words {words}", (ran.returncode, ran.stdout, ran.stderr[:16]), (2, b"", b"usage: vunit_lsp"))
same("what is left", os.listdir("tmp"), [])
end()
