"""Makes what simulators leave of runs, as docs/FORMATS.md has it, and exports of selected tests, in the present folder."""

import json, os

REPORT = os.path.join(os.environ["TOP"], "wrappers", "vunit_report")
PLAIN = b"ABCDEFGHIJKLMNOPQRSTUVWXYZabcdefghijklmnopqrstuvwxyz0123456789_-."
DATA = """vunit_run_data 1
run {run}
start {start:.3f}
end {end:.3f}
code {code}
command ghdl -r tb
{cases}
error {error}
whole
"""


def escaped(text):
    return "".join(chr(byte) if byte in PLAIN else f"={byte:02x}" for byte in text.encode())


def make(name, cases, run="one", start=1_700_000_000.0, seconds=0.5, code=0, error="", output=b"", folder=None):
    """The folder of a run: `cases` has verdicts by names."""
    folder = f"vunit_out/tests/{folder or escaped(name)}"
    os.makedirs(folder)
    lines = "\n".join(f"case {verdict} {escaped(case)}" for case, verdict in cases.items())
    with open(f"{folder}/run.txt", "w") as file:
        file.write(DATA.format(run=run, start=start, end=start + seconds, code=code, cases=lines, error=escaped(error)))
    with open(f"{folder}/output.txt", "wb") as file:
        file.write(output)
    return folder


def select(*names):
    os.makedirs("vunit_out", exist_ok=True)
    with open("vunit_out/selected.json", "w") as file:
        json.dump({"export_format_version": {"major": 1, "minor": 0, "patch": 0}, "files": [],
                   "tests": [{"attributes": {}, "location": {}, "name": name} for name in names]}, file)
