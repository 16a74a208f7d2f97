"""A project in an editor: its buffers, and the runs of vunit_run that find faults in them."""

# Why it is so:
# A check is -f and, unless that refuses, --export-json: so a refusal is shown before tests are looked for. A change ends a
# check with SIGKILL, since it has no children and holds no lock.

import json, os, signal

import folder_changes
from linked_folder import OUT, LinkedFolder
from lsp_builds import Builds
from lsp_client import ERROR, Progress
from lsp_diagnostics import Shown, path_of
from lsp_findings import Test, check_findings, what_of
from lsp_loop import Run
from lsp_texts import Text, text_of_buffer
from program_texts import files_in, refusal_in
from refusal_places import Finding, Places
from vunit_report import split_name

# Seconds: from the last change to a run; after which a run's words are shown; and after which a run is left to itself, since it may be
# the launcher, which builds the program.
QUIET, LATE, SHORT = 0.15, 1.0, 10.0
LONGEST_PAUSE = 60
REFUSED, OVER_LIMIT = 1, 5


class Project:
    def __init__(self, client, loop, program, folder, room, settings):
        self.client, self.loop, self.program, self.folder = client, loop, program, folder
        self.room, self.settings = room, settings
        self.linked = LinkedFolder(folder, os.path.join(room, "project"), own=[room])
        self.buffers, self.versions, self.files, self.tests, self.has_tests = {}, {}, [], [], False
        self.shown = Shown(client, folder, self.text, self.versions.get)
        self.builds = Builds(self, os.path.join(folder, OUT))
        self.check, self.is_first, self.pause, self.progress = None, True, 0, None
        self.has_new_names, self.is_project, self.changes = True, None, None
        self.follow_folder()
        self.changed()

    # Files and buffers.

    def path_in(self, uri):
        """The path of a file below the project's folder, or None."""
        path = path_of(uri)
        for folder in (self.folder, os.path.realpath(self.folder)) if path else ():
            inside = os.path.relpath(path, folder)
            if inside.split("/")[0] not in ("..", ".", OUT):
                return inside
        return None

    def open(self, path, letters, version):
        self.buffers[path] = text_of_buffer(letters, self.on_disk(path), self.settings.units)
        self.versions[path] = version
        if self.is_unsaved(path):
            self.changed()

    def is_unsaved(self, path):
        return self.buffers[path].data() != self.on_disk(path)

    def change(self, path, place, letters, version):
        """Changes a buffer: the whole text, or the text between two places."""
        if place is None:
            self.buffers[path] = text_of_buffer(letters, self.on_disk(path), self.settings.units)
        else:
            self.shown.move(path, *place, self.buffers[path].change(*place, letters))
        self.versions[path] = version
        self.changed()

    def close(self, path):
        if path in self.buffers:
            is_unsaved = self.is_unsaved(path)
            del self.buffers[path], self.versions[path]
            if is_unsaved:
                self.changed()

    def saved(self):
        self.follow_folder()
        if self.settings.compiles_on_save and self.is_project:
            self.builds.compile()

    def on_disk(self, path):
        try:
            with open(os.path.join(self.folder, path), "rb") as file:
                return file.read()
        except (OSError, ValueError):
            return None

    def text(self, path):
        """The text of a file as the client has it."""
        return self.buffers.get(path) or Text(self.linked.read(path) or b"", self.settings.units)

    def take_changes(self):
        """Files of the folder have changed. Whether a name that is new is one of the project, a check tells."""
        files = {os.fsdecode(path) for _, path in self.files}
        changes = self.changes.changes()
        self.has_new_names = self.has_new_names or any(change.is_name for change in changes)
        # (what lies on the disk below an open buffer doesn't count)
        concerns = [folder_changes.concerns(change, self.folder, files, not self.has_tests) for change in changes
                    if change.path not in self.buffers]
        if any(concerns):
            self.changed()
        elif None in concerns:
            self.check_soon()

    def follow_folder(self):
        """Follows the files of the folder. One without a project file may be any folder of the disk: only that file is waited for."""
        is_project = folder_changes.has_project(self.folder) or any(name in self.buffers for name in folder_changes.PROJECT_FILES)
        if is_project == self.is_project:
            return
        if self.changes is not None:
            if self.changes.file is not None:
                self.loop.forget(self.changes.file)
            self.changes.close()
        self.is_project, self.has_new_names, self.changes = is_project, True, folder_changes.follow(self.folder, is_project)
        if self.changes.file is not None:
            self.loop.read(self.changes.file, self.take_changes)

    def follow(self):
        """Makes the folder of links as the project is now."""
        self.follow_folder()
        unsaved = {path: text.data() for path, text in self.buffers.items() if self.is_unsaved(path)}
        self.linked.follow(unsaved, self.has_new_names or self.changes.file is None, self.is_project)
        self.has_new_names = False

    # Faults of the sources, while somebody types.

    def changed(self):
        """Something that a run would read has changed."""
        self.builds.forget_passed()
        self.check_soon()

    def check_soon(self):
        self.loop.at("check", max(QUIET, self.pause), self.begin_check)

    def is_late(self):
        """Whether what has just been found is of a state that is gone."""
        return "check" in self.loop.times

    def begin_check(self):
        """Asks for faults of the sources. An earlier run is ended, but not one that may be building the program."""
        if self.check:
            if self.is_first or self.check.age() > SHORT:
                self.loop.at("check", QUIET, self.begin_check)
                return
            self.check.drop()
            self.end_check()
        try:
            self.follow()
        except OSError as fault:
            self.fail(f"{fault.filename}: {fault.strerror}")
            return
        self.check = self.start(["-f"], self.end_files)

    def start(self, words, ended):
        return Run(self.loop, [self.program, *words], self.linked.path, ended, self.told, self.settings.environment)

    def told(self, run, part):
        """Shows what a run says that takes long."""
        lines = [line for line in part.decode("utf-8", "replace").split("\n") if line.strip()]
        if lines and run.age() > LATE:
            self.progress = self.progress or Progress(self.client, "vunit_run")
            self.progress.report(lines[-1])

    def end_check(self):
        self.check, self.is_first = None, False
        if self.progress:
            self.progress.end()
            self.progress = None

    def end_files(self, run):
        self.end_check()
        if self.is_late():
            return
        if run.status != 0:
            self.refused(run)
            return
        files, self.pause = files_in(run.output()), 0
        if self.files and files != self.files:
            self.builds.forget_passed()
        self.files = files
        self.shown.put("check", check_findings(run, self.places()))
        self.check = self.start([f"--export-json={self.room}/export.json"], self.end_export)

    def end_export(self, run):
        self.end_check()
        if self.is_late():
            return
        if run.status != 0:
            self.refused(run)
            return
        try:
            with open(f"{self.room}/export.json", encoding="utf-8") as file:
                exported = json.load(file)["tests"]
            texts = {path: self.linked.read(path) or b"" for path in {test["location"]["file_name"] for test in exported}}
            self.put_tests([Test(test, split_name, texts[test["location"]["file_name"]]) for test in exported])
        except (OSError, ValueError, KeyError, TypeError) as fault:
            self.fail(f"the export of {self.program}: {fault}")

    def put_tests(self, tests, is_whole=True):
        """Takes the tests of an answer; of a refused project no tests are known."""
        before = [(test.name, test.path, test.place) for test in self.tests]
        self.tests, self.has_tests = tests, is_whole
        self.builds.show_verdicts()
        if self.settings.refreshes_lenses and before != [(test.name, test.path, test.place) for test in tests]:
            self.client.ask("workspace/codeLens/refresh", None)

    def places(self):
        return Places(lambda path: self.linked.read(os.fsdecode(path)), self.files)

    def refused(self, run):
        """Shows why a run has no answer: a refusal, or a fault outside of the sources."""
        self.put_tests([], False)
        refusal = refusal_in(run.output())
        if run.status in (REFUSED, OVER_LIMIT) and refusal is not None:
            self.pause = 0
            self.shown.put("check", check_findings(run, self.places(), refusal))
        else:
            self.fail(what_of(run, self.program))

    def fail(self, text):
        """Shows a fault that a later run may not have, and waits longer before that one."""
        self.shown.put("check", [Finding(self.places().project, None, text.encode("utf-8", "replace"))])
        if not self.pause:
            self.client.show(ERROR, text)
        self.pause = min(LONGEST_PAUSE, self.pause * 2 or 1)
        if not self.is_late():
            self.loop.at("check", self.pause, self.begin_check)

    # Tests.

    def lenses(self, path):
        """A lens for each case of a file, and before the first of a bench one for all of them."""
        found, benches, text = [], set(), self.text(path)
        data = text.data()
        for test in self.tests:
            if test.path != path or data[slice(*test.place)] != test.written:
                continue
            place = text.range(*test.place)
            if test.bench not in benches and test.written == test.case.encode():
                found.append(lens(place, f"run {test.bench}", test.bench))
            benches.add(test.bench)
            found.append(lens(place, "run", test.name))
        return found

    def end(self):
        for run in list(self.loop.runs):
            run.drop(signal.SIGTERM)


def lens(place, title, name):
    return {"range": place, "command": {"title": title, "command": "vunit_run.test", "arguments": [name]}}
