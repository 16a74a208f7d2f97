#!/usr/bin/env python3
"""Makes the folder everyday: the packages of this folder without what few benches call.

GHDL reads all of a package each time a bench starts, whatever the bench calls of it. So the wrapper hands it a short form of
each group of packages, unless the bench and what it uses have one of the group's words. The file everyday/words lists these:
the names of the omitted calls, and the names that each bench with checkers has. Some omitted calls do not show by words: other
forms of everyday checks, calls with a place in a file, and calls whose name is common in benches. Where GHDL refuses a bench
over short packages, the wrapper starts it again over the whole ones.

A short package has nothing that the whole one hasn't. So a call that GHDL takes over both means the same.

A group is what is whole or short together. What another group calls is never left out. But for check_pkg, lines stay where they are,
so that places in what GHDL says are those of the whole package.
"""

import os, re, subprocess, sys

GROUPS = [
    ["texts_pkg", "core_pkg", "string_ops", "dictionary", "path"],
    ["ansi_pkg", "log_levels_pkg", "log_handler_pkg", "loggers_pkg", "logger_pkg", "print_pkg"],
    ["checker_pkg", "check_values_pkg", "check_pkg"],
    ["course_pkg", "run_pkg"],
]
# What benches don't see.
PRIVATE = ["texts_pkg", "loggers_pkg", "check_values_pkg", "course_pkg"]
# What is never left out, though only benches call it.
KEPT = """
get_logger log trace debug pass info warning error failure warning_if error_if failure_if show show_all hide hide_all
set_stop_level disable_stop get_log_count print
test_runner_setup test_suite run test_runner_cleanup test_runner_watchdog set_timeout active_test_case running_test_case
output_path tb_path active_python_runner
""".split()
CHECK_WORDS = ["active_clock_edge", "checker_t", "default_checker", "new_checker", "null_checker"]
# Names that are common in benches: a bench with one of them seldom means the omitted call.
COMMON = ["count", "disable", "enable", "enabled", "find", "get", "len", "replace", "say", "to_string"]
START = re.compile(r'^( +)(?:impure |pure )?(function|procedure) ("?[\w+=-]+"?)')
# The parameters of a place, where they are declared and where they are handed on.
PLACE = re.compile(r'; path_offset, line_num : natural := 0; file_name : string := ""')
HANDED_ON = ", path_offset, line_num, file_name"
FOLDER = os.path.dirname(os.path.realpath(__file__))


class Subprogram:
    """Lines of a package that declare a subprogram, or are its body."""

    def __init__(self, name, first, end, text, is_public):
        self.name, self.first, self.end, self.text, self.is_public = name, first, end, text, is_public


class Package:
    def __init__(self, name, text):
        self.name = name
        self.lines = [re.sub(r"(^|\s)--.*", "", line) for line in text.splitlines()]
        self.seldom = seldom_lines(text)
        self.subprograms = list(self.find_subprograms())

    def find_subprograms(self):
        at, in_body = 0, False
        while at < len(self.lines):
            in_body = in_body or self.lines[at].startswith("package body ")
            if not (found := START.match(self.lines[at])):
                at += 1
                continue
            first, at = at, self.end_of(at, found[1], found[3])
            is_public = not in_body and len(found[1]) == 2 and self.name not in PRIVATE
            text = "".join("" if number in self.seldom else self.lines[number] + "\n" for number in range(first, at))
            yield Subprogram(found[3], first, at, text, is_public)

    def end_of(self, at, indent, name):
        """The line behind a subprogram."""
        first = at
        while (text := self.text(first, at + 1)).count("(") > text.count(")") or not text.endswith((";\n", " is\n")):
            at += 1
        if text.endswith(" is\n"):
            while not re.match(rf"{indent}end (function|procedure) {re.escape(name)};", self.lines[at]):
                at += 1
        return at + 1

    def text(self, first=0, end=None):
        return "\n".join(self.lines[first:end]) + "\n"

    def rest(self):
        """Everything but subprograms."""
        inside = {at for each in self.subprograms for at in range(each.first, each.end)} | self.seldom
        return "\n".join(line for at, line in enumerate(self.lines) if at not in inside)

    def needs(self, packages):
        """The names by which it may call something of these packages."""
        needed = set()
        for package in packages:
            used = [part for line in self.lines for part in re.findall(rf"use work\.{package.name}\.(\w+)", line)]
            names = {each.name for each in package.subprograms}
            needed |= words_of(self.text()) & names if "all" in used else set(used)
        return needed

    def public_names(self):
        return {each.name for each in self.subprograms if each.is_public}

    def without(self, left_out):
        gone = {at for each in left_out for at in range(each.first, each.end)} | self.seldom
        return "".join(("" if at in gone else line) + "\n" for at, line in enumerate(self.lines))


def words_of(text):
    return set(re.findall(r"\w+", re.sub(r'"[^"]*"', "", text)))


def seldom_lines(text):
    """The lines from one `-- (seldom)` to the next `-- (often)`: they are left out with the calls that have them do anything."""
    lines, is_seldom = set(), False
    for at, line in enumerate(text.splitlines()):
        is_seldom = line.strip() == "-- (seldom)" or is_seldom and line.strip() != "-- (often)"
        if is_seldom:
            lines.add(at)
    return lines


def left_out_of(packages, others):
    """What a group can do without, where others are what the packages outside of it need."""
    needed = set(KEPT).union(*(package.public_names() for package in packages if package.name == "check_pkg"), *others,
                             *(words_of(package.rest()) for package in packages))
    left = [each for package in packages for each in package.subprograms]
    while wanted := [each for each in left if each.name in needed and each.text]:
        left = [each for each in left if each not in wanted]
        needed |= words_of("".join(each.text for each in wanted))
    return left


def without_places(text):
    """The package logger_pkg whose procedures, but for log, take no place in a file."""
    lines = text.splitlines(keepends=True)
    for at, line in enumerate(lines):
        if "procedure log(" not in line:
            lines[at] = PLACE.sub("", line)
        if not line.startswith("    log(default_logger, msg, log_level,"):
            lines[at] = lines[at].replace(HANDED_ON, "")
    return "".join(lines)


def make_group(folder, names, packages, whole_checks):
    """Writes the short packages of a group, and gives its words."""
    own = [packages[name] for name in names]
    left_out = left_out_of(own, [package.needs(own) for name, package in packages.items() if name not in names])
    kept = {each.name for package in own for each in package.subprograms if each not in left_out}
    words = {each.name for each in left_out if each.is_public and each.name.isidentifier()} - kept
    if "check_pkg" in names:
        words |= whole_checks.public_names() - packages["check_pkg"].public_names() | set(CHECK_WORDS)
    for package in own:
        text = package.without([each for each in left_out if each in package.subprograms])
        with open(os.path.join(folder, package.name + ".vhd"), "w") as file:
            file.write(without_places(text) if package.name == "logger_pkg" else text)
    return sorted(words - set(COMMON))


def read(name):
    with open(os.path.join(FOLDER, name)) as file:
        return Package(name[:-4], file.read())


def main():
    folder = os.path.join(FOLDER, "everyday")
    os.makedirs(folder, exist_ok=True)
    packages = {name[:-4]: read(name) for name in sorted(os.listdir(FOLDER)) if name.endswith(".vhd")}
    whole_checks = packages["check_pkg"]
    short = subprocess.run([sys.executable, "-IS", os.path.join(FOLDER, "check_pkg.py"), "everyday"], check=True, stdout=subprocess.PIPE)
    packages["check_pkg"] = Package("check_pkg", short.stdout.decode())
    with open(os.path.join(folder, "words"), "w") as file:
        for names in GROUPS:
            print(*names, ":", *make_group(folder, names, packages, whole_checks), file=file)


main()
