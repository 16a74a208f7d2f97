"""Compiles the project of an editor and runs its tests, over its folder of links and with a store of its own: one run at a time."""

# Why it is so:
# Compilations and tests of the server have a store in vunit_out/lsp, a second server in lsp_2. They would contend for the
# lock of the terminal's store.
# A save compiles what the editor shows, including other unsaved buffers, so the lines of messages fit the screen.
# Each change of a source withdraws a verdict `pass`; a verdict `fail` stays, since it vouches for nothing.

import fcntl, os, re, signal

from lsp_client import ERROR, INFORMATION, WARNING, Progress
from lsp_loop import Run
from lsp_findings import SEVERITIES, compile_findings, program_warnings, verdict_finding, warning_findings, what_of
from program_texts import compiled_in, outputs_in, refusal_in
from vunit_report import read_xunit

# How many editors may have the project open at once with a store that stays, and the seconds after which a run that was told to end
# is killed.
STORES, PATIENCE = 8, 5
NO_PATTERN = re.compile(r"[*?\[]")


def own_store(out):
    """A folder that no other server has: below `vunit_out` of the project. The lock is held as long as the file is open."""
    for number in range(1, STORES + 1):
        folder = os.path.join(out, "lsp" if number == 1 else f"lsp_{number}")
        os.makedirs(folder, exist_ok=True)
        file = os.open(os.path.join(folder, "owner"), os.O_RDWR | os.O_CREAT | os.O_CLOEXEC, 0o666)
        try:
            fcntl.flock(file, fcntl.LOCK_EX | fcntl.LOCK_NB)
            return folder
        except OSError:
            os.close(file)
    raise OSError(0, "as many servers have a store there as may have one")


class Builds:
    """What compiles and runs tests. A later task ends the one that is under way, but a compilation waits for tests."""

    def __init__(self, project, out):
        self.project, self.out, self.store = project, out, None
        self.run, self.is_test, self.next, self.progress = None, False, None, None
        # (whether what is tested has changed, and verdicts of tests whose places aren't known yet)
        self.is_outdated, self.waiting = False, None

    def compile(self):
        self.begin(None)

    def test(self, names):
        self.begin(names)

    def begin(self, names):
        """Begins a compilation, or tests if `names` names some; or has it begin later."""
        self.project.follow_folder()
        if not self.project.is_project:
            self.project.client.show(ERROR, "no vunit.toml and no vunit.csv")
            return
        if self.run is None:
            self.start(names)
            return
        if names is None and self.is_test:
            self.next = self.next or (None,)
            return
        self.next = (names,) if names is not None or self.next is None else self.next
        self.stop()

    def stop(self):
        self.run.signal(signal.SIGINT)
        run = self.run
        self.project.loop.at("build", PATIENCE, lambda: run.signal(signal.SIGKILL))

    def start(self, names):
        project = self.project
        self.find_store()
        try:
            project.follow()
        except OSError as fault:
            project.client.show(ERROR, f"{fault.filename}: {fault.strerror}")
            return
        self.is_outdated, self.waiting = False, None
        self.is_test, slots = names is not None, f"-p{project.settings.slots}"
        words = ["--compile", "-k", slots]
        if names is not None:
            self.results = os.path.join(project.room, "results.xml")
            if os.path.exists(self.results):
                os.unlink(self.results)
            words = ["-v", slots, "-x", self.results, *map(self.pattern_of, names)]
            self.progress = Progress(project.client, "vunit_run", quiet=True)
            self.progress.report(", ".join(names[:3]))
        self.run = Run(project.loop, [project.program, *words], project.linked.path, lambda run: self.ended(run, names),
                       environment=project.settings.environment)

    def pattern_of(self, name):
        """The pattern that fits a test, or all tests of a bench."""
        pattern = NO_PATTERN.sub(r"[\g<0>]", name)
        return pattern + ".*" if any(test.bench == name for test in self.project.tests) else pattern

    def find_store(self):
        """Gives the folder of links its store, which stays in the project where it can."""
        if self.store is None:
            try:
                self.store = own_store(self.out)
            except OSError as fault:
                self.store = os.path.join(self.project.room, "store")
                os.makedirs(self.store, exist_ok=True)
                self.project.client.log(WARNING, f"{self.out}: {fault.strerror}: what is compiled is forgotten at the end")
            os.symlink(self.store, os.path.join(self.project.linked.path, "vunit_out"))

    def ended(self, run, names):
        project, following = self.project, self.next
        self.run, self.next = None, None
        project.loop.never("build")
        if self.progress:
            self.progress.end()
            self.progress = None
        if following is None or run.status == 0 or run.status == 1:
            self.show(run, names)
        if following is not None:
            self.start(following[0])

    def show(self, run, names):
        project = self.project
        output = run.output()
        if run.status not in (0, 1) or refusal_in(output) is not None:
            project.shown.put("compile", [])
            # (a check shows a refusal)
            if run.status not in (0, 1) or names is not None:
                project.client.show(ERROR, what_of(run, project.program))
            return
        compiled, places = compiled_in(output, project.files), project.places()
        project.shown.put("build", program_warnings(run, places))
        project.shown.put("compile", compile_findings(compiled, places))
        again = {os.fsdecode(file.path) for file in compiled}
        project.shown.put("warnings", warning_findings(run.errors(), places, again), lambda path, _: path not in again)
        if names is not None:
            verdicts = read_xunit(self.results)
            if any(file.end == b"failed" for file in compiled):
                project.client.show(ERROR, "no test was run, since a file was refused")
            elif not verdicts:
                project.client.show(WARNING, "no test was run, since none has this name")
            else:
                self.waiting = run.output(), verdicts, names
                self.show_verdicts()

    def show_verdicts(self):
        """Shows the verdict of each test at its name, once the names are known, and the whole text in the client's log."""
        project = self.project
        if self.waiting is None or not project.has_tests:
            return
        (output, verdicts, names), self.waiting = self.waiting, None
        tests = [test for test in project.tests if test.name in names or test.bench in names]
        outputs = outputs_in(output, [test.name.encode() for test in tests])
        found = []
        for test in tests:
            verdict = verdicts.get((test.bench, test.case))
            if verdict and not (self.is_outdated and verdict == "pass"):
                found.append(verdict_finding(test, verdict, outputs.get(test.name.encode(), (None, b""))[1]))
        known = {test.name for test in tests}
        project.shown.put("tests", found, lambda _, one: one.get("code") not in known)
        counts = [sum(verdict == one for one in verdicts.values()) for verdict in SEVERITIES]
        words = ", ".join(f"{verdict} {count} of {len(verdicts)}" for verdict, count in zip(SEVERITIES, counts))
        project.client.log(INFORMATION, output.decode("utf-8", "replace"))
        project.client.show(INFORMATION if counts[0] == len(verdicts) else ERROR, words)

    def forget_passed(self):
        """Takes back the verdicts of tests that passed: what they were of has changed."""
        self.is_outdated = True
        shown, passed = self.project.shown, SEVERITIES["pass"]
        if any(one["severity"] == passed for found in shown.by_source.get("tests", {}).values() for one in found):
            shown.put("tests", [], lambda _, one: one["severity"] != passed)
