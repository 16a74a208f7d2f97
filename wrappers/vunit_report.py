"""Writes a report of one run of tests: JUnit XML with times, outputs and causes, and a page in HTML.

usage: vunit_report [WORD ..] FILE
       vunit_report --around FILE PROGRAM [WORD ..]

    --export FILE    the selected tests: what `vunit_run --export-json` wrote for the same patterns, before the run;
                     vunit_out/selected.json unless it is named
    --run ID         the run with this number in place of the newest
    --xunit FILE     the -x of the run, whose verdicts count where it is there
    --html FILE      writes a page too
    --all-output     has the output of tests that passed too

It works in the folder of the project, where simulators leave data of their runs (docs/FORMATS.md). A selected test without
whole data of the run is an error, as is a run that was cut off. No such report is green. It ends with 0 where the report was
written, and with 2 where it couldn't be.

With --around, which the launcher says for VUNIT_REPORT=FILE, it exports the selected tests, runs the program with these words, and
reports; a page goes to the file that VUNIT_REPORT_HTML names. It ends as the program does, and with 2 where that ended with 0
and the report couldn't be written. Before the run it writes a report of a run that was cut off, so that one that is killed
leaves no older report.
"""

# Why it is so:
# A report is made beside the program, of what a simulator leaves of each run, and of -x. The program's own report has neither
# times nor outputs.
# A number that the launcher gives each start identifies the data of a run, since times differ between machines.
# The report of a run that was cut off is written before the run: if it came only at the end, an old green one could stay
# after a hard kill.
# A case without whole data is an error, as is a failure of the program without a failed test. No result is green unless a
# tool vouches for it.

import json, os, re, signal, subprocess, sys
from xml.etree import ElementTree

from report_forms import Case, Outputs, write_page, write_xml
from run_data import NAME, escaped, read_data

OUT, RUNS, SELECTED = "vunit_out", b"vunit_out/tests", "vunit_out/selected.json"
WRONG, PARENT_DEATH, FOLDER_LIMIT = 2, 1, 255
VERDICTS = {b"pass": "pass", b"fail": "fail", b"skip": "skip"}
STOPS = (signal.SIGINT, signal.SIGTERM, signal.SIGHUP, signal.SIGQUIT)
PLAIN = b"ABCDEFGHIJKLMNOPQRSTUVWXYZabcdefghijklmnopqrstuvwxyz0123456789_-."
# The forms of -x among the words of the program.
XUNIT = re.compile(r"(?:-[lfkmvq]*x|--xunit-xml=)(.+)")


class Wrong(Exception):
    """Why there is no report."""


def split_name(name):
    """Class and case of `LIBRARY.BENCH.CASE`: an extended name of a bench may have dots."""
    library, _, rest = name.partition(".")
    end = rest.find(".")
    if rest.startswith("\\"):
        end = 1
        while (end := rest.find("\\", end)) >= 0 and rest[end + 1 : end + 2] == "\\":
            end += 2
        end += 1
    return f"{library}.{rest[:end]}", rest[end + 1 :]


def read_selected(path):
    """The full names of the selected tests, in order, and when they were written."""
    try:
        with open(path, encoding="utf-8") as file:
            names = [test["name"] for test in json.load(file)["tests"]]
            written = os.fstat(file.fileno()).st_mtime
    except OSError as fault:
        raise Wrong(f"{path}: {fault.strerror}: write it before the run, by vunit_run --export-json {path} and the run's patterns")
    except (ValueError, KeyError, TypeError):
        raise Wrong(f"{path} isn't an export of vunit_run")
    if not all(isinstance(name, str) and name.count(".") >= 2 for name in names):
        raise Wrong(f"{path} isn't an export of vunit_run")
    return names, written


def read_xunit(path):
    """The verdicts of a report by -x, by class and case; None without a report."""
    try:
        tree = ElementTree.parse(path)
    except (OSError, ElementTree.ParseError):
        return None
    return {(case.get("classname"), case.get("name")): verdict_in(case) for case in tree.iter("testcase")}


def verdict_in(case):
    """That of an element; an element that -x never has gives no verdict."""
    tags = [child.tag for child in case if child.tag not in ("system-out", "system-err", "properties")]
    return {(): "pass", ("failure",): "fail", ("skipped",): "skip"}.get(tuple(tags), "error")


def folders_of(name):
    """The folders in which the run of a test may be: that of the case, that of its bench, and those of a configuration of the bench, with
    whose name that of the case begins."""
    class_name, case_name = split_name(name)
    parts = case_name[:FOLDER_LIMIT].split(".")
    names = [name, class_name, *(".".join([class_name, *parts[:count]]) for count in range(1, len(parts)))]
    return [os.path.join(RUNS, escaped(part.encode(), PLAIN)) for part in names]


def newest_run(since):
    """The number of the run that has left data last, or None where that was before this time."""
    newest, folder = since, None
    try:
        with os.scandir(RUNS) as entries:
            for entry in entries:
                try:
                    left = os.stat(os.path.join(entry.path, NAME)).st_mtime
                except OSError:
                    continue
                if left >= newest:
                    newest, folder = left, entry.path
    except OSError:
        return None
    data = folder and read_data(folder)
    return data.run if data else None


def data_of(names, run):
    """What simulators have left of these tests in the run with this number, by their names."""
    known, found = {}, {}
    for name in names:
        for folder in folders_of(name):
            if folder not in known:
                known[folder] = read_data(folder)
            data = known[folder]
            if data and data.run == run and split_name(name)[1].encode() in data.verdicts:
                found[name] = data
    return found


class Run:
    """The verdicts of the selected tests in one run."""

    def __init__(self, names, data, verdicts, is_cut=False, status=None):
        """`data` are the data of the runs. `verdicts` are those of -x, or None if the run has not written it. `status` is that
        of the program, if it is known."""
        self.status, self.cases = status, []
        for name in names:
            class_name, case_name = split_name(name)
            case = Case(class_name, case_name)
            if name in data:
                case.take(data[name], VERDICTS[data[name].verdicts[case_name.encode()]])
            if verdicts is not None:
                case.verdict = verdicts.get((class_name, case_name), "error")
            if case.verdict == "error":
                case.message = "the run left no verdict of this test"
            self.cases.append(case)
        self.judge(is_cut)

    def judge(self, is_cut):
        """Adds what stands for a run that did not end, or that failed without a failed test."""
        ended = sum(case.verdict != "error" for case in self.cases)
        if is_cut or ended < len(self.cases):
            self.add_error(f"run was cut off after {ended} of {len(self.cases)} tests", "the run did not end")
        elif self.status and all(case.verdict == "pass" for case in self.cases):
            self.add_error("run ended without a failed test", "no test has failed")

    def add_error(self, name, message):
        case = Case("vunit_run", name)
        case.message = message if self.status is None else f"{message}: vunit_run ended with status {self.status}"
        self.cases.append(case)


def write_reports(run, file, html, all_output):
    outputs = Outputs(run.cases, all_output)
    write_xml(file, run.cases, outputs)
    if html:
        write_page(html, run.cases, outputs)


class Words:
    """The command line of a report over existing data."""

    def __init__(self, words):
        self.values, self.all_output, self.file = {}, False, None
        words = iter(words)
        for word in words:
            name, equals, value = word.partition("=")
            if name in ("--export", "--run", "--xunit", "--html"):
                self.values[name] = value if equals else next(words, None)
                if not self.values[name]:
                    raise Wrong(f"{name} takes a value")
            elif word == "--all-output":
                self.all_output = True
            elif word.startswith("-") or self.file or not word:
                raise Wrong(f"what is {word!r}? usage: vunit_report [--export FILE] [--run ID] [--xunit FILE] [--html FILE] "
                            "[--all-output] FILE")
            else:
                self.file = word
        if not self.file:
            raise Wrong("usage: vunit_report [--export FILE] [--run ID] [--xunit FILE] [--html FILE] [--all-output] FILE")


def report(words):
    """A report over existing data."""
    words = Words(words)
    names, written = read_selected(words.values.get("--export", SELECTED))
    given, xunit, verdicts = words.values.get("--run"), words.values.get("--xunit"), None
    data = data_of(names, os.fsencode(given) if given else newest_run(written))
    # (a run writes -x once all of its tests have ended: an older one is of another run)
    if xunit and os.path.exists(xunit) and os.stat(xunit).st_mtime >= max([written, *(one.left for one in data.values())]):
        verdicts = read_xunit(xunit)
    write_reports(Run(names, data, verdicts), words.file, words.values.get("--html"), words.all_output)
    return 0


class Around:
    """A run of the program with a report of it."""

    def __init__(self, file, program, words):
        self.file, self.html = file, os.environ.get("VUNIT_REPORT_HTML") or None
        self.run_id, self.names = os.environ.get("VUNIT_RUN_ID") or os.urandom(16).hex(), []
        self.command, self.xunit = [program, *words], f"{OUT}/verdicts-{self.run_id}.xml"
        own = [words[at + 1] for at, word in enumerate(words[:-1]) if word in ("-x", "--xunit-xml")]
        own += [found[1] for word in words if (found := XUNIT.fullmatch(word))]
        self.is_own = not own
        if own:
            # (the program takes one -x)
            self.xunit = own[0]
        else:
            self.command[1:1] = ["-x", self.xunit]
        # The -x from before the run: it counts only if the run has written it.
        self.before = stamp_of(self.xunit)

    def select(self):
        """Has the program export the tests of the same words. The run itself reports their faults."""
        export = [self.command[0], "--export-json", SELECTED, *self.command[1:]]
        ran = subprocess.run(export, stdin=subprocess.DEVNULL, stdout=subprocess.DEVNULL, stderr=subprocess.DEVNULL,
                             env={**os.environ, "VUNIT_REPORT": ""})
        if ran.returncode == 0:
            self.names, _ = read_selected(SELECTED)

    def write(self, status=None):
        verdicts = None if stamp_of(self.xunit) == self.before else read_xunit(self.xunit)
        data = data_of(self.names, os.fsencode(self.run_id))
        run = Run(self.names, data, verdicts, is_cut=verdicts is None, status=status)
        write_reports(run, self.file, self.html, False)

    def work(self):
        """The status of the program, below 0 for a signal."""
        self.select()
        self.write()
        # (that report may be where the words have -x)
        self.before = stamp_of(self.xunit)
        # (the program may be a launcher, which would begin another report, and give another number)
        variables = {**os.environ, "VUNIT_REPORT": "", "VUNIT_RUN_ID": self.run_id, "VUNIT_REPORT_RUN": self.run_id}
        child = subprocess.Popen(self.command, env=variables, preexec_fn=end_with_parent())
        for number in STOPS:
            signal.signal(number, lambda number, _: child.send_signal(number))
        status = child.wait()
        try:
            self.write(status if status >= 0 else 128 - status)
        except OSError as fault:
            say(text_of(fault))
            status = status or WRONG
        if self.is_own and os.path.exists(self.xunit):
            os.unlink(self.xunit)
        return status


def end_with_parent():
    """What a child does so that the system ends it with the program, where that is killed: as if it had been the program."""
    try:
        import ctypes

        prctl = ctypes.CDLL(None).prctl
    except (ImportError, OSError, AttributeError):
        return None
    return lambda: prctl(PARENT_DEATH, int(signal.SIGKILL))


def stamp_of(path):
    try:
        found = os.stat(path)
    except OSError:
        return None
    return found.st_ino, found.st_mtime_ns, found.st_size


def end_as(status):
    """Ends as the program has, by the same signal too."""
    if status < 0:
        if -status in STOPS:
            signal.signal(-status, signal.SIG_DFL)
        os.kill(os.getpid(), -status)
    return status if status >= 0 else 128 - status


def around(words):
    if len(words) < 2:
        raise Wrong("usage: vunit_report --around FILE PROGRAM [WORD ..]")
    return Around(words[0], words[1], words[2:]).work()


def text_of(fault):
    return f"{fault.filename}: {fault.strerror}" if fault.filename else fault.strerror


def say(text):
    print(f"vunit_report: {text}", file=sys.stderr)


def main():
    try:
        sys.exit(end_as(around(sys.argv[2:])) if sys.argv[1:2] == ["--around"] else report(sys.argv[1:]))
    except Wrong as fault:
        say(fault)
    except OSError as fault:
        say(text_of(fault))
    sys.exit(WRONG)
