"""What vunit_configs runs: the configurations of each bench, and the names that their cases have."""

import difflib

from bench_request import run_folder
from name_patterns import NamePattern
from run_data import FAILED, PASSED, SKIPPED, WHOLE_BENCH
from vunit_tool import ToolFault

# Bytes of the name of a folder, and of all patterns of one command.
FILE_NAME_LIMIT, PATTERNS_LIMIT = 255, 1_500_000
# Tests in configurations: as many as a project may have.
NAME_LIMIT = 65_536
IN_ONE = b"vunit_configs: %s has a configuration of some cases, %s, and all of them run in one simulation\n"


class CaseName:
    """The name of a case, `CONFIGURATION.CASE` in a configuration, its bench, and its verdict."""

    def __init__(self, bench, configuration, case, verdict):
        self.bench, self.is_configured, self.verdict = bench, configuration is not None, verdict
        self.case = b"%s.%s" % (configuration, case) if self.is_configured else case

    def full(self):
        return b"%s.%s" % (self.bench, self.case)


class Start:
    """A start of the simulator: of a configuration, or of a bench without one. `shown` says where its output is kept, and
    `fault` why it can't begin."""

    def __init__(self, bench, configuration, folder, cases, words=(), fault=None):
        self.bench, self.configuration, self.folder, self.cases, self.words = bench, configuration, folder, cases, words
        self.verdicts, self.is_running, self.shown, self.seconds = [SKIPPED] * max(len(cases), 1), False, (0, 0), 0.0
        self.fault = fault

    def fail(self):
        self.is_running, self.verdicts = False, [FAILED] * len(self.verdicts)

    def has_begun(self):
        return any(verdict != SKIPPED for verdict in self.verdicts)

    def has_passed(self):
        return all(verdict == PASSED for verdict in self.verdicts)

    def names(self):
        return [CaseName(self.bench, self.configuration, *pair) for pair in zip(self.cases or [WHOLE_BENCH], self.verdicts)]


class ProgramRun:
    """A run of the program, with the names of its tests, and the starts that it stands for. `granted` counts the starts that
    were told to begin."""

    def __init__(self, bench, cases, starts, is_configured):
        self.names = [b"%s.%s" % (bench, case) for case in cases or [WHOLE_BENCH]]
        self.starts, self.is_configured, self.granted = starts, is_configured, 0
        self.able = [start for start in starts if start.fault is None]

    def next_start(self):
        return self.able[self.granted] if self.granted < len(self.able) else None


class Plan:
    """The configurations of a table over the tests of a project, as far as patterns select them."""

    def __init__(self, table, configurations, tests, patterns):
        self.table = table
        self.given, self.patterns = patterns, [NamePattern(pattern) for pattern in patterns]
        self.configurations, self.cases = {}, {}
        for test in tests:
            self.cases.setdefault(test.bench, []).append(test.case)
        self.by_name = {test.name: test for test in tests}
        for configuration in configurations:
            self.configurations.setdefault(configuration.bench, []).append(configuration)
        self.check_benches(configurations)
        self.check_names()

    def fault(self, configuration, text):
        return ToolFault(f"{self.table}:{configuration.line}: {text}")

    def check_benches(self, configurations):
        for configuration in configurations:
            bench = configuration.bench
            if bench not in self.cases:
                near = difflib.get_close_matches(bench, self.cases, 1)
                raise self.fault(configuration, f"no bench {bench}" + (f" (did you mean {near[0]}?)" if near else ""))
            if not any(map(configuration.is_for, self.cases[bench])):
                raise self.fault(configuration, f"no case of {bench} matches {configuration.case}")

    def check_names(self):
        """Each name is there once, and no folder is that of two runs."""
        left = NAME_LIMIT
        for bench, configurations in self.configurations.items():
            seen, cases = set(), set(self.cases[bench])
            for configuration in configurations:
                if len(folder_name(f"{bench}.{configuration.name}")) > FILE_NAME_LIMIT:
                    raise self.fault(configuration, f"{bench}.{configuration.name} is too long for the name of a folder")
                for case in filter(configuration.is_for, self.cases[bench]):
                    name = f"{configuration.name}.{case}"
                    if name in seen:
                        raise self.fault(configuration, f"the test {bench}.{name} stands twice")
                    if name in cases:
                        raise self.fault(configuration, f"the test {bench}.{name} has the name of a case without configurations")
                    seen.add(name)
                if len(seen) > left:
                    raise self.fault(configuration, f"there are over {NAME_LIMIT} tests in configurations")
            left -= len(seen)

    def of_case(self, bench, case):
        """The configurations in which a case runs; empty if it runs without one."""
        return [one for one in self.configurations.get(bench, []) if one.is_for(case)]

    def is_selected(self, name):
        return not self.patterns or any(pattern.matches(name) for pattern in self.patterns)

    def names_of_test(self, test, verdict=SKIPPED):
        """The selected names of a test of the program."""
        bench, case = test.bench.encode(), test.case.encode()
        found = [CaseName(bench, one.name.encode(), case, verdict) for one in self.of_case(test.bench, test.case)]
        found = found or [CaseName(bench, None, case, verdict)]
        return [name for name in found if self.is_selected(name.full())]

    def count(self):
        """How many names are selected."""
        return sum(len(self.names_of_test(test)) for test in self.by_name.values())

    def program_patterns(self):
        """The patterns, and behind them those by which the program selects the tests that stand for selected configurations.
        Without patterns, it selects all."""
        found = list(self.given)
        for bench in self.configurations if found else []:
            tests = [self.by_name[f"{bench}.{case}"] for case in self.cases[bench]]
            wanted = [test for test in tests if self.names_of_test(test)]
            if len(wanted) == len(tests):
                found.append(literal(f"{bench}.") + b"*")
            else:
                found += [literal(test.name) for test in wanted if self.of_case(test.bench, test.case)]
        if sum(map(len, found)) > PATTERNS_LIMIT:
            raise ToolFault("the patterns select more tests one by one than a command takes: let them select whole benches")
        return found

    def run_of(self, bench, cases, folder):
        """What a run of the program stands for. Of a bench without cases `cases` is empty."""
        is_in_one = bool(cases) and folder == run_folder(bench)
        own = self.configurations.get(bench.decode(), [])
        texts = [case.decode() for case in cases or [WHOLE_BENCH]]
        if not any(one.is_for(text) for one in own for text in texts):
            return ProgramRun(bench, cases, [Start(bench, None, folder, cases)], False)
        starts = []
        for one in own:
            name = one.name.encode()
            wanted = [text.encode() for text in texts if one.is_for(text)]
            wanted = [case for case in wanted if self.is_selected(b"%s.%s.%s" % (bench, name, case))]
            if wanted:
                place = b"%s.%s" % (bench, name) + (b"" if is_in_one or not cases else b"." + cases[0])
                fault = IN_ONE % (bench, name) if is_in_one and one.pattern is not None else None
                starts.append(Start(bench, name, run_folder(place), wanted if cases else [], one.words, fault))
        return ProgramRun(bench, cases, starts, True)


def folder_name(name):
    return run_folder(name.encode()).rpartition(b"/")[2]


def literal(name):
    """The pattern that matches this name alone."""
    return b"".join([b"[%c]" % byte if byte in b"*?[" else b"%c" % byte for byte in name.encode()])
