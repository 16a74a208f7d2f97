"""Plays the runner for one bench: makes bench requests byte for byte as docs/FORMATS.md has them, hands them to a simulator,
and reads verdicts from code and results. Files are compiled by wrappers/ghdl_analyse, each over all before it."""

import os, struct, subprocess
from compile_requests import WRAPPERS, compile_one, fields, text

SIMULATOR = os.path.join(WRAPPERS, "ghdl_bench")
PLAIN = b"ABCDEFGHIJKLMNOPQRSTUVWXYZabcdefghijklmnopqrstuvwxyz0123456789_-."


def build(files, words=()):
    """The built files of (library, path, source), of which each depends on all before it; a file may have words of its own as
    a fourth part."""
    built = []
    for library, path, source, *own in files:
        own_words = own[0] if own else ()
        code, artefact, said = compile_one(b"".join(fields(library, path, source, built)), [*words, *own_words])
        assert code == 0, f"{path} is refused: {artefact} {said}"
        built.append((library, path, artefact))
    return built


def doubled(part):
    return part.replace(b",", b",,").replace(b":", b"::")


def configuration(cases, output, folder):
    enabled = b",".join(case.replace(b",", b",,") for case in cases)
    pairs = [(b"active python runner", b"true"), (b"enabled_test_cases", enabled), (b"output path", output),
             (b"tb path", folder), (b"use_color", b"false")]
    return b",".join(doubled(key) + b" : " + doubled(value) for key, value in pairs)


class Run:
    """A run of cases of one bench: its names are bytes. `whole` is that the bench has no cases."""

    def __init__(self, built, library, bench, architecture, cases, path=b"tb.vhd", in_one=False):
        self.cases, self.whole = cases, not cases
        name = b"%s.%s" % (library, bench) + (b"" if in_one or self.whole else b"." + cases[0])
        escaped = b"".join(bytes([byte]) if byte in PLAIN else b"=%02x" % byte for byte in name)
        self.folder = b"vunit_out/tests/%s/" % escaped
        self.results = self.folder + b"vunit_results"
        folder = path[: path.rfind(b"/") + 1]
        parts = [library, bench, architecture, len(cases), *cases, configuration(cases, self.folder, folder), self.results,
                 len(built), *(part for file in built for part in file)]
        self.parts = [b"VRB1"] + [part for value in parts for part in (
            [struct.pack("<I", value)] if isinstance(value, int) else [struct.pack("<I", len(value)), value])]

    def request(self):
        return b"".join(self.parts)

    def prepare(self):
        os.makedirs(self.folder, exist_ok=True)
        if os.path.exists(self.results):
            os.remove(self.results)

    def start(self, words=(), data=None, **settings):
        """Code, output and standard error of the simulator; the verdicts are then those of `verdicts`."""
        self.prepare()
        data = self.request() if data is None else data
        ran = subprocess.run([SIMULATOR, *words], input=data, capture_output=True, **settings)
        self.code = ran.returncode
        return ran.returncode, ran.stdout, ran.stderr

    def verdicts(self):
        """A letter for each case: p, f or s."""
        try:
            with open(self.results, "rb") as file:
                lines = [line[:-1] if line.endswith(b"\r") else line for line in file.read().split(b"\n")]
        except FileNotFoundError:
            return "f" * max(len(self.cases), 1)
        ended = "p" if b"test_suite_done" in lines and self.code == 0 else "f"
        if self.whole:
            return ended
        started = [line[11:] for line in lines if line.startswith(b"test_start:") and line[11:] in self.cases]
        of = {case: "p" for case in started}
        if started:
            of[started[-1]] = ended
        return "".join(of.get(case, "s") for case in self.cases)
