"""Writes a project in the forms of two language servers, from the export of vunit_run: vhdl_ls.toml and hdl-prj.json."""

import json, os, re, subprocess, sys, tempfile, tomllib

from report_forms import replace_file

OUTSIDE = 3
STANDARDS = {"87": "1993", "93": "1993", "93c": "1993", "00": "1993", "02": "1993", "08": "2008", "19": "2019"}
HEAD = "# Written by vunit_lsp from the project of vunit_run: write it anew where that changes.\n"
VUNIT_LIBRARY = "vunit_lib"
# What vhdl_ls would take for a pattern or a variable.
NOT_PLAIN = re.compile(r"[*?\[$]")


class Exported:
    """The files of the project in the present folder, library by library, as paths from the folder of the file that is written; and the
    words of its compiler."""

    def __init__(self, files, folder):
        self.files = [(file["library_name"], file["file_name"]) for file in files]
        self.uses_vunit = any(names_vunit(path) for _, path in self.files)
        self.files = [(library, os.path.relpath(path, folder)) for library, path in self.files]
        self.words, self.options = [], {}
        if os.path.exists("vunit.toml"):
            with open("vunit.toml", "rb") as file:
                project = tomllib.load(file)
            command = project.get("compiler", ["@self"])
            self.words = command[1:] if os.path.basename(command[0]) == "ghdl_analyse" else []
            self.options = {table["name"].lower(): table.get("options", []) for table in project["library"]}

    def libraries(self):
        """The paths of each library, the libraries and the paths in the order of compilation."""
        found = {}
        for library, path in self.files:
            found.setdefault(library, []).append(path)
        return found

    def standard(self):
        """The standard for GHDL: that of the compiler's words or of the first library that has one."""
        words = [*self.words, *(word for options in self.options.values() for word in options)]
        return next((word[6:] for word in words if word.startswith("--std=")), "08")

    def shipped(self):
        """The files of the library beside this program, where the project uses `vunit_lib` and hasn't it."""
        if VUNIT_LIBRARY in self.libraries() or not self.uses_vunit:
            return []
        folder = os.path.join(os.path.dirname(os.path.realpath(__file__)), VUNIT_LIBRARY)
        return [os.path.join(folder, name) for name in sorted(os.listdir(folder)) if name.endswith(".vhd")]


def names_vunit(path):
    with open(path, "rb") as file:
        return VUNIT_LIBRARY.encode() in file.read().lower()


def quoted(text):
    """A string of TOML. (Of JSON it is one too, but for the byte 127.)"""
    return json.dumps(text, ensure_ascii=False).replace("\x7f", "\\u007f")


def for_vhdl_ls(exported):
    """The text of vhdl_ls.toml. Paths are patterns there."""
    standard = STANDARDS.get(exported.standard(), "2008")
    lines = [HEAD.rstrip("\n"), f'standard = "{standard}"', "", "[libraries]"]
    libraries = [*exported.libraries().items(), *([(VUNIT_LIBRARY, exported.shipped())] if exported.shipped() else [])]
    for library, paths in libraries:
        plain = [quoted(NOT_PLAIN.sub(r"[\g<0>]", path)) for path in paths]
        lines += [f"{library}.files = [", *(f"  {path}," for path in plain), "]"]
        if library == VUNIT_LIBRARY:
            lines.append(f"{library}.is_third_party = true")
    return "\n".join(lines) + "\n"


def for_hdl_prj(exported):
    """The text of hdl-prj.json: GHDL's words, and the files in the order of compilation."""
    words = [word for word in exported.words if word.startswith("-")]
    if not any(word.startswith("--std=") for word in words):
        words.insert(0, f"--std={exported.standard()}")
    files = [*((VUNIT_LIBRARY, path) for path in exported.shipped()), *exported.files]
    value = {"options": {"ghdl_analysis": words},
             "files": [{"file": path, "language": "vhdl", "library": library} for library, path in files]}
    return json.dumps(value, indent=2, ensure_ascii=False) + "\n"


FORMS = {"--write-vhdl-ls": for_vhdl_ls, "--write-hdl-prj": for_hdl_prj}


def write_project(program, word, path):
    """Writes a file, and gives the status to end with."""
    with tempfile.TemporaryDirectory(prefix="vunit_lsp_") as folder:
        report = os.path.join(folder, "export.json")
        try:
            ran = subprocess.run([program, f"--export-json={report}"], stdin=subprocess.DEVNULL, check=False)
            if ran.returncode != 0:
                return ran.returncode if ran.returncode > 0 else 128 - ran.returncode
            with open(report, encoding="utf-8") as file:
                exported = Exported(json.load(file)["files"], os.path.dirname(path) or os.curdir)
            replace_file(path, FORMS[word](exported))
        except OSError as fault:
            sys.stderr.write(f"vunit_lsp: {fault.filename}: {fault.strerror}\n")
            return OUTSIDE
    return 0
