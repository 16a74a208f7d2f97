"""A language server for VHDL projects of vunit_run, over standard input and output. docs/user/EDITORS.md says what it shows.

usage: vunit_lsp
       vunit_lsp --write-vhdl-ls FILE
       vunit_lsp --write-hdl-prj FILE

The words write the project of the present folder in the form of vhdl_ls (vhdl_ls.toml) or of GHDL-LS (hdl-prj.json), and start no
server. The program is what VUNIT_RUN names; else vunit_run in PATH; else the launcher of this checkout. It ends with 0 after
`shutdown`, with 1 where a client leaves without that, and with 2 where its words are wrong. With --write-.. it ends as the program
does, which refuses a project by name, and with 3 where the file can't be written.
"""

# Why it is so:
# The server runs the program once for each answer, over a folder of links in which buffers are files. So it agrees exactly
# with a run, and the program needs no mode of its own. A session that holds buffers would spare the scan of unchanged files.

import gc, os, shutil, signal, sys

USAGE = "usage: vunit_lsp [--write-vhdl-ls FILE | --write-hdl-prj FILE]\n"
WRONG = 2
ENDING = (signal.SIGTERM, signal.SIGINT, signal.SIGHUP)


def find_program():
    """The program that is run."""
    named = os.environ.get("VUNIT_RUN")
    launcher = os.path.join(os.path.dirname(os.path.dirname(os.path.realpath(__file__))), "bin", "vunit_run")
    return os.path.abspath(named) if named and "/" in named else named or shutil.which("vunit_run") or launcher


def serve(program):
    from lsp_server import run_server

    def leave(number, _):
        raise SystemExit(128 + number)

    for number in ENDING:
        signal.signal(number, leave)
    # (it is turned off for what ends soon)
    gc.enable()
    return run_server(program)


def main():
    words = sys.argv[1:]
    if words in (["--help"], ["-h"]):
        sys.stdout.write(__doc__)
        sys.exit(0)
    if words in ([], ["--stdio"]):
        sys.exit(serve(find_program()))
    if len(words) == 2 and words[0] in ("--write-vhdl-ls", "--write-hdl-prj"):
        from server_projects import write_project

        sys.exit(write_project(find_program(), *words))
    sys.stderr.write(USAGE)
    sys.exit(WRONG)
