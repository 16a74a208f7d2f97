"""Tries wrappers/take_vunit over a tree that is made here in the layout of VUnit 4 and 5, with the packages of
wrappers/vunit_lib: its copies, its lines in vunit.toml, and its refusals. Then it runs the projects of tests/data/vunit_benches
over the copy. REAL may name the folder of a real VUnit, over which these run too. Works in the present folder."""

import glob, os, re, subprocess, sys

from ghdl_trial import TOP
from trial import end, fail, project, run, toml, write
from vunit_benches import PROJECTS, copy

TOOL = f"{TOP}/wrappers/take_vunit"
SHIPPED = f"{TOP}/wrappers/vunit_lib"
# Where the layout has the packages of our library. Other packages belong to `logging`.
PLACES = {
    "vunit_context": "vunit_context", "vunit_run_context": "vunit_run_context", "core_pkg": "core/src/core_pkg",
    "string_ops": "string_ops/src/string_ops", "path": "path/src/path", "dictionary": "dictionary/src/dictionary",
    "check_pkg": "check/src/check", "checker_pkg": "check/src/checker_pkg", "check_values_pkg": "check/src/check_api",
    "run_pkg": "run/src/run", "course_pkg": "run/src/run_api", "run_types_pkg": "run/src/run_types",
    "data_types_context": "data_types/src/data_types_context", "types_pkg": "data_types/src/types_pkg",
    "string_ptr_pkg": "data_types/src/string_ptr_pkg", "integer_vector_ptr_pkg": "data_types/src/integer_vector_ptr_pkg",
    "integer_array_pkg": "data_types/src/integer_array_pkg", "queue_pkg": "data_types/src/queue_pkg",
    "queue_2008p_pkg": "data_types/src/queue_2008p_pkg", "dict_pkg": "data_types/src/dict_pkg",
    "values_pkg": "data_types/src/codec_pkg"}
# Files beside these: what is in them, and where they are in the copy.
COM = "-- Copyright (c) of somebody\npackage com_pkg is\n  constant answer : natural := 42;\nend package;\n"
COM_CONTEXT = "context com_context is\n  library vunit_lib;\n  use vunit_lib.com_pkg.all;\nend context;\n"
TAKEN = {
    "com/src/com.vhd": COM, "com/src/com_context.vhd": COM_CONTEXT,
    "core/src/stop_body_2008p.vhd": "package of_2008p is\nend package;\n",
    "core/src/deep/print_body-2008m.vhd": "package of_2008m is\nend package;\n",
    "core/src/body_2002p.vhd": "package of_2002p is\nend package;\n",
    "core/src/plain_2008.vhd": "package of_2008 is\nend package;\n",
    "data_types/src/external_string_pkg-novhpi.vhd": "package external_string_pkg is\nend package;\n"}
NOT_TAKEN = {
    "core/src/stop_body_93.vhd": "package of_93 is\nend;\n",
    "core/src/print_body-2019p.vhd": "package of_2019p is\nend package;\n",
    "core/src/body_2002m.vhd": "package of_2002m is\nend;\n", "core/src/body-2002.vhd": "package of_2002 is\nend;\n",
    "data_types/src/external/external_string_pkg.vhd": """package external_string_pkg is
  function foreign_get(index : integer) return character;
  attribute foreign of foreign_get : function is "VHPIDIRECT get_string";
end package;
""",
    "core/test/tb_core.vhd": "entity tb_core is\nend entity;\n", "core/src/notes.txt": "not VHDL\n",
    "array/src/array_pkg.vhd": "package array_pkg is\nend package;\n"}
# The files that OSVVM and its users add, and the omitted ones.
OSVVM = {
    "osvvm/RandomPkg.vhd": "package RandomPkg is\nend package;\n",
    "osvvm/ScoreboardPkg_slv.vhd": "package ScoreboardPkg_slv is\nend package;\n",
    "osvvm/OnlyPkg_c.vhd": "package OnlyPkg is\nend package;\n",
    "random/src/random_pkg.vhd": "package random_pkg is\nend package;\n",
    "verification_components/src/vc_context.vhd": "context vc_context is\n  library vunit_lib;\nend context;\n"}
NOT_OF_OSVVM = {
    "osvvm/ScoreboardPkg_slv_c.vhd": "package ScoreboardPkg_slv is\nend package;\n",
    "osvvm/AlertLogPkg_body_BVUL.vhd": "package body AlertLogPkg is\nend package body;\n",
    "osvvm/VendorCovApiPkg_Aldec.vhd": "package VendorCovApiPkg is\nend package;\n",
    "osvvm/deprecated/Old.vhd": "package Old is\nend package;\n"}
PROJECT = 'compiler = ["ghdl_analyse"]\nsimulator = ["ghdl_bench"]\n\n[[library]]\nname = "lib"\nfiles = ["src/*.vhd"]'
LIBRARY = '\n[[library]]\nname = "%s"\nfiles = ["%s/%s/**/*.vhd"]\n'


def packages():
    """The packages of our library, where the layout has them."""
    files = {}
    for path in glob.glob(f"{SHIPPED}/*.vhd"):
        name = os.path.basename(path)[: -len(".vhd")]
        with open(path) as file:
            files[f"{PLACES.get(name, f'logging/src/{name}')}.vhd"] = file.read()
    return files


def make_tree(folder, *parts, about='VERSION = "4.7.0"\n'):
    write(folder, {"vunit/__init__.py": "", "vunit/about.py": about, "vunit/LICENSE.rst": "of VUnit\n",
                   **{f"vunit/vhdl/{path}": text for part in parts for path, text in part.items()}})


def take(*words, folder="project", before=(), **variables):
    ran = subprocess.run([*before, TOOL, *words], cwd=folder, env={**os.environ, **variables}, stdin=subprocess.DEVNULL,
                         stdout=subprocess.PIPE, stderr=subprocess.STDOUT)
    return ran.returncode, ran.stdout.decode()


def all_in(folder):
    """The files below a folder, each with what it holds."""
    found = {}
    for root, _, names in os.walk(folder):
        for name in names:
            path = os.path.join(root, name)
            with open(path, encoding="utf-8", newline="") as file:
                found[os.path.relpath(path, folder)] = file.read()
    return found


def compare(name, got, wanted):
    if got != wanted:
        if isinstance(got, dict):
            got, wanted = ({path: text[:200] for path, text in one.items() if other.get(path) != text}
                           for one, other in ((got, wanted), (wanted, got)))
        fail(name, f"{got}\nand not {wanted}")


def try_copies():
    """What is copied and written, of a VUnit with OSVVM that is named and of one without that Python imports."""
    ours = packages()
    make_tree("with", ours, TAKEN, NOT_TAKEN, OSVVM, NOT_OF_OSVVM)
    project("project", {"vunit.toml": PROJECT})
    count = len(ours) + len(TAKEN) + 2
    tree = os.path.abspath("with/vunit/vhdl")
    compare("with OSVVM", take(f"--from={os.path.abspath('with')}", "sim/vunit"), (
        0, f"VUnit 4.7.0, of {tree}\nvunit_lib: {count} files in sim/vunit/vunit_lib\nosvvm: 3 files in sim/vunit/osvvm\n"))
    copied = {f"vunit_lib/{path}": text for path, text in {**ours, **TAKEN, **OSVVM}.items() if not path.startswith("osvvm/")}
    copied.update({path: text for path, text in OSVVM.items() if path.startswith("osvvm/")})
    compare("the copy", all_in("project/sim/vunit"), {**copied, "vunit_LICENSE.rst": "of VUnit\n"})
    libraries = "".join(LIBRARY % (library, "sim/vunit", library) for library in ("vunit_lib", "osvvm"))
    compare("vunit.toml", all_in("project")["vunit.toml"], PROJECT + "\n" + libraries)

    make_tree("site", ours, TAKEN, about='__version__ = "5.0.0"\n')
    os.remove("site/vunit/LICENSE.rst")
    write("site", {"vunit_hdl-5.0.0.dist-info/METADATA": "Version: 5.0.0\n",
                   "vunit_hdl-5.0.0.dist-info/licenses/LICENSE": "of all\n",
                   "vunit/vhdl/core/src/new_pkg.vhd": "package new_pkg is new new;\n  ?\nend;\n"})
    project("project", {"vunit.toml": PROJECT})
    status, said = take("vunit", PYTHONPATH=os.path.abspath("site"))
    wanted = (f"VUnit 5.0.0, of {os.path.abspath('site')}/vunit/vhdl\n"
              f"vunit_lib: {len(ours) + len(TAKEN)} files in vunit/vunit_lib\n"
              "random and verification_components are left out, since they need OSVVM, which isn't in this VUnit\n"
              "left out, since GHDL can't read it: vunit_lib/core/src/new_pkg.vhd: 1:24: ")
    compare("without OSVVM", (status, said[: len(wanted)], said.count("\n")), (0, wanted, 4))
    copied = {f"vunit_lib/{path}": text for path, text in {**ours, **TAKEN}.items()}
    compare("its copy", all_in("project/vunit"), {**copied, "vunit_LICENSE": "of all\n"})
    compare("its vunit.toml", all_in("project")["vunit.toml"], PROJECT + "\n" + LIBRARY % ("vunit_lib", "vunit", "vunit_lib"))


def refusals(named):
    """Words that are refused, and why. A VUnit that is right is named by the word that is given."""
    usage = "usage: take_vunit [--from=VUNIT] FOLDER"
    outside = "isn't below the present folder, so no pattern of vunit.toml can name its files"
    unseen = "the runner looks for no files in vunit_out, nor below a name that begins with a dot"
    layout = "hasn't the layout of VUnit 4 or 5"
    here = os.getcwd()
    return [
        ([], usage), (["a", "b"], usage), (["--to=a", "b"], usage), (["--from=", "a"], usage), ([named, named, "a"], usage),
        ([named, ".."], f".. {outside}"), ([named, "."], f". {outside}"), ([named, "/tmp/vunit"], f"/tmp/vunit {outside}"),
        ([named, "vunit_out/vunit"], f"vunit_out/vunit: {unseen}"), ([named, "a/.vunit"], f"a/.vunit: {unseen}"),
        ([named, "a*"], 'a*: a pattern can\'t name a folder with one of these characters: *?["\\'),
        ([named, "link/vunit"], "link/vunit: the runner doesn't follow the link link"),
        ([named, "full"], "full is there and isn't an empty folder"),
        ([named, "file"], "file is there and isn't an empty folder"),
        (["--from=/nowhere", "a"], "/nowhere isn't a folder of VUnit: it has no folder vhdl"),
        ([f"--from={here}/empty", "a"], f"{here}/empty/vhdl {layout}: vunit_context.vhd isn't there"),
        ([f"--from={here}/old", "a"], f"{here}/old/vunit/vhdl {layout}: run/src/run_api.vhd isn't there"),
        ([f"--from={here}/without_com/vunit/vhdl", "a"], f"{here}/without_com/vunit/vhdl {layout}: com/src isn't there")]


def try_refusals():
    """Each ends with 1, says why and changes nothing."""
    make_tree("old", {path: text for path, text in {**packages(), **TAKEN}.items() if path != "run/src/run_api.vhd"})
    make_tree("without_com", packages())
    os.makedirs("empty/vhdl")
    named = f"--from={os.path.abspath('with')}"
    project("project", {"vunit.toml": PROJECT, "full/a.txt": "a", "file": "f"})
    os.symlink("full", "project/link")
    before = all_in("project")
    for words, wanted in refusals(named):
        compare(f"{words}", take(*words), (1, f"take_vunit: {wanted}\n"))
        compare(f"what is there after {words}", all_in("project"), before)
    for text, wanted in [(PROJECT + '\n[[library]]\nname = "VUnit_Lib"\nfiles = []\n',
                          "vunit.toml has a library vunit_lib: take it out first"),
                         ('library = [{name = "lib", files = ["*.vhd"]}]\n',
                          "vunit.toml has its libraries in one list: give each a table [[library]]")]:
        project("project", {"vunit.toml": text})
        compare(wanted, take(named, "a"), (1, f"take_vunit: {wanted}\n"))
        compare(f"what is there after {wanted}", all_in("project"), {"vunit.toml": text})
    project("project", {"vunit.toml": b"# \xff\n"})
    compare("no UTF-8", take(named, "a"), (1, "take_vunit: vunit.toml isn't UTF-8\n"))
    project("project", {})
    compare("no vunit.toml", take(named, "a"), (1, "take_vunit: there is no vunit.toml in the present folder\n"))


def try_signals():
    """A signal while the copy is looked at: a ghdl that sends it to its parent."""
    for number in (1, 2, 15):
        write("kills", {"ghdl": f"#!/bin/sh\nkill -{number} $PPID\nexec sleep 5\n"})
        os.chmod("kills/ghdl", 0o755)
        project("project", {"vunit.toml": PROJECT})
        compare(f"signal {number}", take(f"--from={os.path.abspath('with')}", "sim/vunit",
                                         PATH=f"{os.path.abspath('kills')}:{os.environ['PATH']}"), (128 + number, ""))
        compare(f"what signal {number} leaves", os.listdir("project"), ["vunit.toml"])


def try_no_vunit():
    """Where no Python of PATH finds VUnit, whatever the machine has."""
    for name in ("python3", "python"):
        write("no_vunit", {name: "#!/bin/sh\n"})
        os.chmod(f"no_vunit/{name}", 0o755)
    project("project", {"vunit.toml": PROJECT})
    compare("no VUnit", take("a", before=[sys.executable, "-IS"], PATH=os.path.abspath("no_vunit")), (
        1, "take_vunit: neither python3 nor python in PATH finds VUnit: name its folder with --from=VUNIT\n"))


def try_benches(name, tree):
    """Runs all projects in one, over the library that is taken from this tree."""
    libraries = {"own_lib": ["own.vhd"]}
    project(name, {"own.vhd": """library vunit_lib;
context vunit_lib.vunit_context;
context vunit_lib.com_context;
entity own is
  generic (runner_cfg : string);
end entity;
architecture tb of own is
begin
  main : process
  begin
    test_runner_setup(runner, runner_cfg);
    test_runner_cleanup(runner);
  end process;
end architecture;
"""})
    for part in PROJECTS:
        copy(part, f"{name}/{part}")
        with open(f"{name}/{part}/vunit.toml") as file:
            for library, pattern in re.findall(r'name = "(\w+)"\nfiles = \["([^"]+)"\]', file.read()):
                libraries[library] = [f"{part}/{pattern}"]
    settings = 'simulator = ["ghdl_bench"]\nusers_depend_on_bodies = true\n'
    write(name, {"vunit.toml": toml(libraries, ["ghdl_analyse"], more=settings)})
    status, said = take(f"--from={tree}", "taken", folder=name)
    if status != 0:
        return fail(f"{name}: take_vunit", said)
    taken = len(glob.glob(f"{name}/taken/**/*.vhd", recursive=True))
    cases = 1 + sum(len(cases) for _, benches in PROJECTS.values() for cases in benches.values())
    status, text, error = run(name, "-p", "2", seconds=280)
    text = text.decode(errors="replace")
    compiled = len(re.findall(r"^Compiling into (?:vunit_lib|osvvm): taken/\S* passed$", text, re.MULTILINE))
    # (on standard error GHDL warns of names that hide others)
    if status != 0 or compiled != taken or f"pass {cases} of {cases}\n" not in text:
        fail(f"{name}: the projects over what was taken",
             f"status {status}, {compiled} of {taken} files compiled\n{text[-3000:]}{error}")


if real := os.environ.get("REAL"):
    try_benches("over a real VUnit", real)
else:
    try_copies()
    try_refusals()
    try_signals()
    try_no_vunit()
    try_benches("over the layout", os.path.abspath("with"))
end()
