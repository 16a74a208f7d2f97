"""Runs the benches of a project in the configurations of a table, and all other benches unchanged: in one run of vunit_run.

usage: vunit_configs TABLE [WORD ..]

The words are those of vunit_run. A test of a bench of the table is named LIBRARY.BENCH.CONFIGURATION.CASE in the text, in reports
and in patterns. docs/user/GHDL.md has the form of the table. It runs what VUNIT_RUN names, or vunit_run, whose status is its own; 1
is also that of a fault in the table, 2 of wrong words, and 3 of a table that can't be read."""

# Why it is so:
# The tests come from an export. Names of benches in the text would be guesses.

import json, os, shutil, signal, subprocess, sys

from configuration_plan import Plan
from configuration_reports import ProgramText, junit_of, shown_tests, text_of
from configuration_server import Server
from configuration_table import TableReader
from run_data import PASSED
from runner_words import RunnerWords, WrongWords
from tool_folder import ToolFolder
from vunit_tool import OUTSIDE, REFUSED, WRONG, Test, ToolFault, exported, program, project_words, put, run_tool, started

TOOL = "vunit_configs"
WRAPPERS = os.path.dirname(os.path.realpath(__file__))
STAND_IN = os.path.join(WRAPPERS, "configured_bench")


class Report:
    """A report at a path that the user gives. A regular file, or a missing one, is first written by the program, which knows
    what it may replace. Anything else is written here alone, in place."""

    def __init__(self, path):
        self.path = path
        self.is_replaced = not os.path.exists(path) or os.path.isfile(path)

    def write(self, data):
        try:
            if self.is_replaced:
                self.replace(os.path.realpath(self.path), data)
            else:
                # (a pipe that nobody reads is refused)
                file = os.open(self.path, os.O_WRONLY | os.O_NONBLOCK)
                os.set_blocking(file, True)
                with open(file, "wb") as pipe:
                    pipe.write(data)
        except OSError as fault:
            raise ToolFault(f"{self.path}: {fault.strerror}", OUTSIDE) from None

    def replace(self, path, data):
        beside = f"{path}.{os.getpid()}"
        try:
            with open(beside, "xb") as file:
                file.write(data)
            os.replace(beside, path)
        except OSError:
            if os.path.exists(beside):
                os.unlink(beside)
            raise


class Configurations:
    """One call of the tool."""

    def __init__(self, words):
        self.run = program(TOOL)
        try:
            self.words = RunnerWords(words)
        except WrongWords as wrong:
            raise ToolFault(str(wrong), WRONG) from None
        # (a tool around this one may put options before the table)
        if not self.words.patterns:
            raise ToolFault("usage: vunit_configs TABLE [WORD ..]", WRONG)
        self.table = self.words.patterns.pop(0)
        self.configurations = TableReader(self.table).read()

    def work(self):
        mode = self.words.mode()
        if mode == "generate" or mode in ("files", "compile") and "minimal" not in self.words.flags:
            return subprocess.call([self.run, *self.words.words(), "--", *self.words.patterns])
        self.export = exported(self.run)
        tests = [Test(test["name"]) for test in self.export["tests"]]
        self.plan = Plan(self.table, self.configurations, tests, [os.fsencode(pattern) for pattern in self.words.patterns])
        return {"export-json": self.export_tests, "list": self.list_tests, "run": self.run_tests}.get(mode, self.hand_on)()

    def command(self, without=(), more=()):
        """The words for the program, with patterns that select what stands for selected configurations."""
        return [self.run, *self.words.words(without, more), "--", *map(os.fsdecode, self.plan.program_patterns())]

    def hand_on(self):
        return subprocess.call(self.command())

    def list_tests(self):
        ran = subprocess.run(self.command(), stdin=subprocess.DEVNULL, stdout=subprocess.PIPE)
        if ran.returncode != 0:
            put(ran.stdout)
            return ran.returncode
        lines = ran.stdout.splitlines(keepends=True)
        first = len(lines) - 1 - int(lines[-1].split(b" ")[1])
        names = [name.full() for line in lines[first:-1] for name in self.plan.names_of_test(Test(line.rstrip(b"\n").decode()))]
        put(b"".join([*lines[:first], *(name + b"\n" for name in names), b"Listed %d tests\n" % len(names)]))
        return 0

    def export_tests(self):
        report = Report(self.words.values["export-json"])
        with ToolFolder(TOOL) as folder:
            path = report.path if report.is_replaced else os.path.join(folder, "tests.json")
            ran = subprocess.run(self.command(["export-json"], [f"--export-json={path}"]), stdin=subprocess.DEVNULL)
            if ran.returncode == 0:
                with open(path, encoding="utf-8") as file:
                    export = json.load(file)
                export["tests"] = [{**test, "name": name.full().decode()} for test in export["tests"]
                                   for name in self.plan.names_of_test(Test(test["name"]))]
                text = json.dumps(export, separators=(",", ":"), ensure_ascii=False) + "\n"
                report.write(text.encode())
        return ran.returncode

    def simulator(self):
        """The name of the simulator, for which a stand-in can stand."""
        name = project_words("simulator")[0]
        if "/" in name or name.startswith("@"):
            raise ToolFault(f"the simulator {name} isn't one that PATH finds, as ghdl_bench is: it has no configurations")
        if project_words("compiler")[0] == name:
            raise ToolFault(f"the simulator {name} is the compiler too: it has no configurations")
        if shutil.which(name) is None:
            raise ToolFault(f"there is no command {name}", OUTSIDE)
        return name

    def run_tests(self):
        words, simulator = self.words, self.simulator()
        report = Report(words.values["xunit-xml"]) if "xunit-xml" in words.values else None
        with ToolFolder(TOOL) as folder:
            server = Server(self.plan, words.at_once, words.flags, folder)
            more = ["--quiet"] + ([f"--xunit-xml={report.path}"] if report and report.is_replaced else [])
            command = self.command(["quiet", "verbose", "xunit-xml"], more)
            status, said = self.serve(server, folder, simulator, command)
            text = ProgramText(said)
            if text.verdicts is None:
                put(said)
                return status
            shown = shown_tests(self.plan, server, text.verdicts)
            put(text.before + text_of(shown, "quiet" in words.flags, "verbose" in words.flags))
            if report and status <= REFUSED:
                report.write(junit_of(shown))
        has_passed = all(name.verdict == PASSED for one in shown for name in one.names)
        return status if has_passed or "exit-0" in words.flags else max(status, REFUSED)

    def serve(self, server, folder, simulator, command):
        """Runs the program with stand-ins for its simulator: its status, and what it printed."""
        inside = os.path.join(folder, "bin")
        if os.pathsep in inside:
            raise ToolFault(f"no command is found in {inside}: set TMPDIR to a folder without {os.pathsep}", OUTSIDE)
        os.mkdir(inside)
        os.symlink(STAND_IN, os.path.join(inside, simulator))
        given = {**os.environ, "PATH": os.pathsep.join([inside, os.environ.get("PATH", os.defpath)]), "VUNIT_CONFIGS": folder,
                 "VUNIT_CONFIGS_PYTHON": sys.executable, "VUNIT_CONFIGS_WRAPPERS": WRAPPERS}
        child = started(command, stdin=subprocess.DEVNULL, stdout=subprocess.PIPE, env=given)
        folder.watch_over(child.pid)
        said = server.serve(child)
        status = child.wait()
        if server.signal:
            # (ends as whoever gave the signal expects it)
            signal.signal(server.signal, signal.SIG_DFL)
            folder.leave()
            os.kill(os.getpid(), server.signal)
        return (status if status >= 0 else 128 - status), said


def work(words):
    if file := os.environ.get("VUNIT_REPORT"):
        # (a report around the program alone would know of no configuration)
        report = os.path.join(WRAPPERS, "vunit_report")
        os.execv(report, [report, "--around", file, os.path.join(WRAPPERS, TOOL), *words])
    return Configurations(words).work()


def main():
    run_tool(TOOL, __doc__, work)
