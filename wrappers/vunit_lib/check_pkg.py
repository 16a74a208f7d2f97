#!/usr/bin/env python3
"""Prints check_pkg.vhd: each check of VUnit's interface in all its forms, from one line for each. With the word `everyday` it prints
the short package (see everyday.py).

A check has six forms: with the default checker or one of the bench's, as a procedure, as one that tells whether it passed, and as a
function that does. Those over a clock are two more. The short package has the first form alone, of the checks in EVERYDAY, and
without the place in a file. `build` calls this before it analyses the package.
"""

# Why it is so:
# A metavalue equals nothing when values are compared, is not one bit of a one-hot vector, matches only `-`, and is not
# stable. VUnit's way for check_stable is not documented.

import sys

EVERYDAY = ["check", "check_true", "check_false", "check_relation", "check_not_unknown", "check_equal"]
# Endings of what of these is seldom called.
SELDOM = ("_bit", "_std_ulogic", "integer_vector")

TAIL = "path_offset, line_num : natural := 0; file_name : string := \"\""
CORE = "msg : string; level : log_level_t; line_num : natural; file_name : string"
MESSAGE = "msg : string := check_result_tag; level : log_level_t := null_log_level; "


def names_of(parameters):
    """The names of `a, b : t; c : u := d`."""
    return ", ".join(part.partition(":")[0].replace("signal ", "").strip() for part in parameters.split(";"))


class Check:
    """`parameters` are what is checked, `condition` whether it passes, and `said` a call that says so, without its end. `more` are
    parameters behind the level, with `extra` behind the names of files."""

    def __init__(self, name, parameters, condition, said, more="", extra="", kind=""):
        self.name, self.parameters, self.condition, self.said = name, parameters, condition, said
        self.tail = f"{MESSAGE}{more + '; ' if more else ''}{TAIL}{'; ' + extra if extra else ''}"
        self.own = "; ".join(part for part in (more, extra) if part)
        self.core_name = core_of(name, kind)

    def core(self):
        """The one procedure that all forms call. (Its name is its own: GHDL compares a call with all subprograms of its name, and the
        bench waits for that.)"""
        own = f"{plain_parameters(self.own)}; " if self.own else ""
        return subprogram(
            "procedure", f"{self.core_name}(checker : checker_t; {self.parameters}; {own}{CORE})",
            f"    if not passes_unseen(checker, {self.condition}) then\n"
            f"      {self.said}, msg, level, line_num, file_name);\n    end if;\n")

    def is_everyday(self):
        return self.name in EVERYDAY and not self.core_name.endswith(SELDOM)

    def short(self):
        """Head and body of the form of the short package."""
        tail = self.tail.replace(f"; {TAIL}", "")
        said = f"{self.said}, msg, level, 0, \"\")".replace("(checker, ", "(default_checker, ")
        return ("procedure", f"{self.name}({self.parameters}; {tail})",
                f"    if not passes_unseen(default_checker, {self.condition}) then\n      {said};\n    end if;\n")

    def heads(self):
        """Head and body of each form."""
        names = names_of(self.parameters) + (f", {names_of(self.own)}" if self.own else "")
        for checker, given in ("default_checker", ""), ("checker", "checker : checker_t; "):
            call = f"    {self.core_name}({checker}, {names}, msg, level, line_num, file_name);\n"
            yield "procedure", f"{self.name}({given}{self.parameters}; {self.tail})", call
            yield ("procedure", f"{self.name}({given}variable pass : out boolean; {self.parameters}; {self.tail})",
                   call + "    pass := latest_passed;\n")
            yield ("impure function", f"{self.name}({given}{self.parameters}; {self.tail}) return boolean",
                   call + "    return latest_passed;\n")


def core_of(name, kind=""):
    """The name of the procedure behind the forms of a check."""
    return f"{name}_now{'_' + kind if kind else ''}"


def plain_parameters(parameters):
    """Without defaults."""
    return "; ".join(part.partition(":=")[0].strip() for part in parameters.split(";"))


class Clocked:
    """A check at each active edge of a clock, by its body. `before` and `after` are parameters around the level and the edge."""

    def __init__(self, name, signals, body, variables="", before="", after="", kind=""):
        self.name, self.signals, self.body, self.variables = name, signals, body, variables
        self.before, self.after, self.core_name = before, after, f"{name}_at_edges{'_' + kind if kind else ''}"

    def core(self):
        own = "".join(plain_parameters(part) + "; " for part in (self.before, self.after) if part)
        return subprogram("procedure", f"{self.core_name}(checker : checker_t; {self.all_signals()}; {own}active_clock_edge : edge_t; "
                          f"{CORE})", self.body, self.variables)

    def all_signals(self):
        return "; ".join(f"signal {part}" for part in ["clock, en : std_logic", *self.signals.split("; ")])

    def heads(self):
        before, after = (f"{part}; " if part else "" for part in (self.before, self.after))
        tail = f"msg : string := check_result_tag; {before}level : log_level_t := null_log_level; " \
               f"active_clock_edge : edge_t := rising_edge; {after}{TAIL}"
        own = "".join(names_of(part) + ", " for part in (self.before, self.after) if part)
        for checker, given in ("default_checker", ""), ("checker", "checker : checker_t; "):
            yield ("procedure", f"{self.name}({given}{self.all_signals()}; {tail})",
                   f"    {self.core_name}({checker}, clock, en, {names_of(self.signals)}, {own}active_clock_edge, msg, level, line_num, "
                   "file_name);\n")


def subprogram(kind, head, body=None, variables=""):
    if body is None:
        return f"  {kind} {head};\n"
    name = head[: head.index("(")]
    return f"  {kind} {head} is\n{variables}  begin\n{body}  end {kind.split()[-1]} {name};\n\n"


def plain(name, parameters, condition, title, details='""', **more):
    return Check(name, parameters, condition, f'conclude(checker, "{title}", {details}', **more)


def equal(got, expected, condition, got_image, expected_image, **more):
    parameters = f"got, expected : {got}" if got == expected else f"got : {got}; expected : {expected}"
    return Check("check_equal", parameters, condition, f'conclude_comparison(checker, "Equality check", {got_image}, {expected_image}',
                 kind=f"{got}_{expected}", **more)


def match(got, expected):
    parameters = f"got, expected : {got}" if got == expected else f"got : {got}; expected : {expected}"
    return Check("check_match", parameters, "matches(std_logic_vector(got), std_logic_vector(expected))",
                 'conclude_comparison(checker, "Match check", image(got), image(expected)',
                 kind=f"{got}_{expected}")


def at_edges(core, values):
    """The body of a check that makes another one over the values at an edge."""
    return (f"    loop\n      wait_for_edge(clock, en, active_clock_edge);\n"
            f"      {core}(checker, {values}, msg, level, line_num, file_name);\n    end loop;\n")


def equalities():
    direct = "got = expected", "to_string(got)", "to_string(expected)"
    yield equal("integer", "integer", *direct)
    of_number = "got, number(expected)", "image(got)", "image(expected, got'length)"
    number_of = "number(got), expected", "image(got, expected'length)", "image(expected)"
    for one, other, condition, got, expected in [
            ("unsigned", "unsigned", "got, expected", "image(got)", "image(expected)"),
            ("unsigned", "natural", *of_number), ("natural", "unsigned", *number_of),
            ("unsigned", "std_logic_vector", "got, unsigned(expected)", "image(got)", "image(expected)"),
            ("std_logic_vector", "unsigned", "unsigned(got), expected", "image(got)", "image(expected)"),
            ("std_logic_vector", "natural", "unsigned(got), number(expected)", *of_number[1:]),
            ("natural", "std_logic_vector", "number(got), unsigned(expected)", *number_of[1:]),
            ("signed", "signed", "got, expected", "image(got)", "image(expected)"),
            ("signed", "integer", "got, to_signed(expected, 32)", "image(got)", "signed_image(expected, got'length)"),
            ("integer", "signed", "to_signed(got, 32), expected", "signed_image(got, expected'length)", "image(expected)")]:
        yield equal(one, other, f"same({condition})", got, expected)
    yield equal("std_logic_vector", "std_logic_vector", "got = expected", "image(got)", "image(expected)")
    yield equal("std_logic", "std_logic", *direct)
    yield equal("std_logic", "boolean", "got = bit_of(expected)", *direct[1:])
    yield equal("boolean", "std_logic", "bit_of(got) = expected", *direct[1:])
    yield equal("boolean", "boolean", *direct)
    yield equal("character", "character", *direct)
    yield equal("string", "string", "got = expected", "got", "expected")
    yield equal("real", "real", "is_near(got, expected, max_diff)", "to_string(got)", "image(expected, max_diff)",
                more="max_diff : real := 0.0")
    yield equal("time", "time", "got = expected", "image(got)", "image(expected)")
    yield equal("integer_vector", "integer_vector", "got = expected", "image(got)", "image(expected)")


def all_checks():
    for name, title, condition, verdict in [
            ("check", "Check", "expr", "is_true(expr)"), ("check_true", "True check", "expr", "is_true(expr)"),
            ("check_false", "False check", "not expr", "to_x01(expr) /= '0'")]:
        yield plain(name, "expr : boolean", condition, title)
        yield Clocked(name, "expr : std_logic", at_edges(core_of(name), verdict))
    both = "antecedent_expr, consequent_expr"
    yield plain("check_implication", f"{both} : boolean", "not antecedent_expr or consequent_expr", "Implication check")
    yield Clocked("check_implication", f"{both} : std_logic", at_edges(
        core_of("check_implication"), "to_x01(antecedent_expr) /= '0', is_true(consequent_expr)"))
    for kind in "boolean", "std_ulogic", "bit":
        yield plain("check_relation", f"expr : {kind}", {"boolean": "expr", "std_ulogic": "is_true(expr)", "bit": "expr = '1'"}[kind],
                    "Relation check", "context_msg", extra='context_msg : string := ""', kind=kind)
    for kind, value in ("std_logic_vector", "expr"), ("std_logic", "(0 => expr)"):
        yield Check("check_not_unknown", f"expr : {kind}", "not is_x(expr)", f"conclude_known(checker, {value}", kind=kind)
        yield Clocked("check_not_unknown", f"expr : {kind}", at_edges(core_of("check_not_unknown", kind), "expr"), kind=kind)
    for name, title, condition in [("check_zero_one_hot", "Zero one-hot check", "ones_of(expr) <= 1"),
                                   ("check_one_hot", "One-hot check", "ones_of(expr) = 1")]:
        yield plain(name, "expr : std_logic_vector", condition, title, '"Got " & to_nibble_string(expr) & "."')
        yield Clocked(name, "expr : std_logic_vector", at_edges(core_of(name), "expr"))
    yield from equalities()
    for got, expected in [("unsigned", "unsigned"), ("unsigned", "std_logic_vector"), ("std_logic_vector", "unsigned"),
                          ("std_logic_vector", "std_logic_vector"), ("signed", "signed")]:
        yield match(got, expected)
    for kind, is_bit in ("std_logic_vector", False), ("std_logic", True):
        expr = "(0 => expr)" if is_bit else "expr"
        yield Clocked("check_stable", f"start_event, end_event : std_logic; expr : {kind}",
                      STABLE % (expr, str(is_bit).lower()), OF_STABLE % ("1" if is_bit else "expr'length"),
                      after="allow_restart : boolean := false", kind=kind)
    yield Clocked("check_next", "start_event, expr : std_logic", NEXT, OF_NEXT,
                  before="num_cks : natural := 1; allow_overlapping, allow_missing_start : boolean := true")
    yield Clocked("check_sequence", "event_sequence : std_logic_vector", SEQUENCE, OF_SEQUENCE,
                  before="trigger_event : trigger_event_t := penultimate")


OF_STABLE = """    variable first : std_logic_vector(1 to %s);
    variable edges : natural := 0;
"""
STABLE = """    loop
      wait_for_edge(clock, en, active_clock_edge);
      check_edge_of_window(checker, start_event, end_event, %s, %s, allow_restart, first, edges, msg, level, line_num, file_name);
    end loop;
"""
OF_NEXT = """    variable starts : std_logic_vector(0 to num_cks) := (others => '0');
"""
NEXT = """    loop
      wait_for_edge(clock, en, active_clock_edge);
      starts := to_x01(start_event) & starts(0 to num_cks - 1);
      check_edge_of_next(checker, starts, expr, allow_overlapping, allow_missing_start, msg, level, line_num, file_name);
    end loop;
"""
OF_SEQUENCE = """    variable reached : boolean_vector(1 to event_sequence'length) := (others => false);
"""
SEQUENCE = """    if event_sequence'length < 2 then
      core_failure("check_sequence: a sequence has at least two events");
      wait;
    end if;
    loop
      wait_for_edge(clock, en, active_clock_edge);
      check_edge_of_sequence(checker, event_sequence, trigger_event, reached, msg, level, line_num, file_name);
    end loop;
"""

FRONT = """-- (made by check_pkg.py)
library ieee;
use ieee.std_logic_1164.all;
use ieee.numeric_std.all;

use work.checker_pkg.all;
use work.log_levels_pkg.all;

-- Checks. One that fails is a line of its checker's logger, at its level or the checker's; one that passes is a line of the level pass.
-- A check with a clock is a concurrent call: it checks at each active edge of the clock at which `en` is 1.
package check_pkg is
  type edge_t is (rising_edge, falling_edge, both_edges);

  -- Which events of a sequence have the next one follow: the first, each time it comes or only where no sequence has begun; or all but
  -- the last.
  type trigger_event_t is (first_pipe, first_no_pipe, penultimate);

  -- A message that begins with it has the name of the check there: result("for the first word").
  constant check_result_tag : string := "<+/->";
  function result(msg : string := "") return string;

"""
MIDDLE = """end package check_pkg;

use work.check_values_pkg.all;
use work.core_pkg.all;
use work.string_ops.to_nibble_string;
use work.texts_pkg.image;

package body check_pkg is
  function result(msg : string := "") return string is
  begin
    if msg = "" then
      return check_result_tag;
    end if;
    return check_result_tag & " " & msg;
  end function result;

  -- The message with the name of the check, and what was got.
  function completed(name, msg, details : string) return string is
    constant tag : positive := check_result_tag'length;

    function message return string is
      alias text : string(1 to msg'length) is msg;
    begin
      if text'length < tag then
        return text;
      elsif text(1 to tag) = check_result_tag then
        return name & text(tag + 1 to text'length);
      end if;
      return text;
    end function message;
  begin
    if msg = "" then
      return details;
    elsif details = "" then
      return message;
    end if;
    return message & " - " & details;
  end function completed;

  -- Says how the check ended that was counted last.
  procedure conclude(
    checker : checker_t; name, details, msg : string; level : log_level_t; line_num : natural; file_name : string) is
  begin
    if latest_passed then
      say(checker, completed(name & " passed", msg, details), pass, line_num, file_name);
    else
      say(checker, completed(name & " failed", msg, details), level, line_num, file_name);
    end if;
  end procedure conclude;

  procedure conclude_comparison(
    checker : checker_t; name, got, expected, msg : string; level : log_level_t; line_num : natural; file_name : string) is
  begin
    if latest_passed and name = "Equality check" then
      conclude(checker, name, "Got " & got & ".", msg, level, line_num, file_name);
    else
      conclude(checker, name, "Got " & got & ". Expected " & expected & ".", msg, level, line_num, file_name);
    end if;
  end procedure conclude_comparison;

  procedure conclude_known(
    checker : checker_t; expr : std_logic_vector; msg : string; level : log_level_t; line_num : natural; file_name : string) is
  begin
    if latest_passed then
      conclude(checker, "Not unknown check", "Got " & image(expr) & ".", msg, level, line_num, file_name);
    else
      conclude(checker, "Not unknown check", "Got " & to_nibble_string(expr) & ".", msg, level, line_num, file_name);
    end if;
  end procedure conclude_known;

  -- A check that was made at an edge.
  procedure conclude_edge(
    checker : checker_t; passed : boolean; name, details, msg : string; level : log_level_t; line_num : natural;
    file_name : string) is
  begin
    if not passes_unseen(checker, passed) then
      conclude(checker, name, details, msg, level, line_num, file_name);
    end if;
  end procedure conclude_edge;

"""
EDGES = """  -- Until the next active edge at which the check is enabled. What is checked are the values before it.
  procedure wait_for_edge(signal clock, en : in std_logic; active_clock_edge : edge_t) is
    variable is_active : boolean;
  begin
    loop
      wait on clock;
      case active_clock_edge is
        when rising_edge  => is_active := rising_edge(clock);
        when falling_edge => is_active := falling_edge(clock);
        when both_edges   => is_active := rising_edge(clock) or falling_edge(clock);
      end case;
      exit when is_active and is_true(en);
    end loop;
  end procedure wait_for_edge;

  function image(value : std_logic_vector; is_bit : boolean) return string is
  begin
    if is_bit then
      return to_string(value);
    end if;
    return image(value);
  end function image;

  -- `edges` counts those of the window that is open, and is 0 where none is; `first` is what was seen at the first one.
  procedure check_edge_of_window(
    checker : checker_t; start_event, end_event : std_logic; expr : std_logic_vector; is_bit, allow_restart : boolean;
    variable first : inout std_logic_vector; variable edges : inout natural;
    msg : string; level : log_level_t; line_num : natural; file_name : string) is
    constant name : string := "Stability check";
  begin
    if is_x(start_event) or (edges > 0 and is_x(end_event)) then
      conclude_edge(checker, false, name, "The start event is " & to_string(start_event) & " and the end event is "
                    & to_string(end_event) & ".", msg, level, line_num, file_name);
    end if;
    if is_true(start_event) and (edges = 0 or allow_restart) then
      first := expr;
      edges := 1;
    elsif edges > 0 then
      edges := edges + 1;
    end if;
    if edges > 0 and (is_x(expr) or to_x01(expr) /= to_x01(first)) then
      conclude_edge(checker, false, name, "Got " & image(expr, is_bit) & " at the " & ordinal(edges)
                    & " active and enabled clock edge. Expected " & image(first, is_bit) & ".", msg, level, line_num, file_name);
      edges := 0;
    elsif edges > 0 and is_true(end_event) then
      conclude_edge(checker, true, name, "Got " & image(expr, is_bit) & " for " & to_string(edges)
                    & " active and enabled clock edges.", msg, level, line_num, file_name);
      edges := 0;
    end if;
  end procedure check_edge_of_window;

  -- The start event is at index 0 of `starts`, and behind it that of each edge before.
  procedure check_edge_of_next(
    checker : checker_t; starts : std_logic_vector; expr : std_logic; allow_overlapping, allow_missing_start : boolean;
    msg : string; level : log_level_t; line_num : natural; file_name : string) is
    constant name : string := "Next check";
  begin
    if is_x(starts(0)) then
      conclude_edge(checker, false, name, "The start event is X.", msg, level, line_num, file_name);
    end if;
    for edge in 1 to starts'right - 1 loop
      if is_true(starts(0)) and is_true(starts(edge)) and not allow_overlapping then
        conclude_edge(checker, false, name, "Got overlapping start event at the " & ordinal(edge + 1)
                      & " active and enabled clock edge.", msg, level, line_num, file_name);
      end if;
    end loop;
    if is_true(starts(starts'right)) and is_true(expr) then
      conclude_edge(checker, true, name, "", msg, level, line_num, file_name);
    elsif is_true(starts(starts'right)) then
      conclude_edge(checker, false, name, "Got " & to_string(expr) & " at the " & ordinal(starts'right + 1)
                    & " active and enabled clock edge.", msg, level, line_num, file_name);
    elsif is_true(expr) and not allow_missing_start then
      conclude_edge(checker, false, name, "Missing start event for expected event.", msg, level, line_num, file_name);
    end if;
  end procedure check_edge_of_next;

  -- An event is reached where it and all before it came at edges that follow one another, the last of them at the edge before.
  procedure check_edge_of_sequence(
    checker : checker_t; event_sequence : std_logic_vector; trigger_event : trigger_event_t;
    variable reached : inout boolean_vector; msg : string; level : log_level_t; line_num : natural; file_name : string) is
    alias events : std_logic_vector(1 to event_sequence'length) is event_sequence;
    variable is_under_way : boolean := false;
  begin
    for number in events'right downto 2 loop
      reached(number) := reached(number - 1) and is_true(events(number));
      is_under_way := is_under_way or (reached(number) and number < events'right);
      if reached(number - 1) and not reached(number) and (trigger_event /= penultimate or number = events'right) then
        conclude_edge(checker, false, "Sequence check", "Missing required event at the " & ordinal(number)
                      & " active and enabled clock edge.", msg, level, line_num, file_name);
      end if;
    end loop;
    reached(1) := is_true(events(1)) and (trigger_event /= first_no_pipe or not is_under_way);
    if reached(events'right) then
      conclude_edge(checker, true, "Sequence check", "", msg, level, line_num, file_name);
    end if;
  end procedure check_edge_of_sequence;

  procedure check_passed(checker : checker_t; msg : string := check_result_tag; %(tail)s) is
  begin
    conclude_edge(checker, true, "Unconditional check", "", msg, pass, line_num, file_name);
  end procedure check_passed;

  procedure check_passed(msg : string := check_result_tag; %(tail)s) is
  begin
    conclude_edge(default_checker, true, "Unconditional check", "", msg, pass, line_num, file_name);
  end procedure check_passed;

  procedure check_failed(checker : checker_t; %(message)s%(tail)s) is
  begin
    conclude_edge(checker, false, "Unconditional check", "", msg, level, line_num, file_name);
  end procedure check_failed;

  procedure check_failed(%(message)s%(tail)s) is
  begin
    conclude_edge(default_checker, false, "Unconditional check", "", msg, level, line_num, file_name);
  end procedure check_failed;

"""


UNCONDITIONAL = """  procedure check_passed(checker : checker_t; msg : string := check_result_tag; %(tail)s);
  procedure check_passed(msg : string := check_result_tag; %(tail)s);
  procedure check_failed(checker : checker_t; %(message)s%(tail)s);
  procedure check_failed(%(message)s%(tail)s);

"""
SHORT_UNCONDITIONAL = [
    ("procedure", "check_passed(msg : string := check_result_tag)",
     '    conclude_edge(default_checker, true, "Unconditional check", "", msg, pass, 0, "");\n'),
    ("procedure", f"check_failed({MESSAGE.rstrip('; ')})",
     '    conclude_edge(default_checker, false, "Unconditional check", "", msg, level, 0, "");\n')]


def whole():
    checks = list(all_checks())
    forms = [form for check in checks for form in check.heads()]
    return [FRONT, UNCONDITIONAL, *(subprogram(*form[:2]) for form in forms), MIDDLE, EDGES, *(check.core() for check in checks),
            *(subprogram(*form) for form in forms)]


def short():
    forms = SHORT_UNCONDITIONAL + [check.short() for check in all_checks() if isinstance(check, Check) and check.is_everyday()]
    return [FRONT, *(subprogram(*form[:2]) for form in forms), MIDDLE, *(subprogram(*form) for form in forms)]


def main():
    parts = short() if "everyday" in sys.argv[1:] else whole()
    fixed = {"%(tail)s": TAIL, "%(message)s": MESSAGE}
    for part in parts:
        for name, text in fixed.items():
            part = part.replace(name, text)
        print(part, end="")
    print("end package body check_pkg;")


main()
