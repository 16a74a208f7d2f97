"""The checks of wrappers/vunit_lib, each with arguments by which it passes and by which it fails, and what the log says of it."""

# Arguments of check_equal that pass, and such that fail; how the got value is written, and the two of the failing check.
EQUAL = [
    ("3, 3", "-3, 4", "3", "-3", "4"),
    ("u4, u4", "u4, u8", "0101 (5)", "0101 (5)", "0000_0110 (6)"),
    ("u4, resize(u4, 40)", "resize(u4, 40), u8", "0101 (5)", "0000_" * 9 + "0101 (5)", "0000_0110 (6)"),
    ("u4, five", "u4, four", "0101 (5)", "0101 (5)", "4 (0100)"),
    ("five, u4", "four, u4", "5 (0101)", "4 (0100)", "0101 (5)"),
    ("u4, std_logic_vector(u4)", "u4, v4", "0101 (5)", "0101 (5)", "01X1 (NaN)"),
    ("std_logic_vector(u4), u4", "v4, u4", "0101 (5)", "01X1 (NaN)", "0101 (5)"),
    ("v4, v4", "v4, std_logic_vector(u4)", "01X1 (NaN)", "01X1 (NaN)", "0101 (5)"),
    ("std_logic_vector(u4), five", "v4, five", "0101 (5)", "01X1 (NaN)", "5 (0101)"),
    ("five, std_logic_vector(u4)", "five, v4", "5 (0101)", "5 (0101)", "01X1 (NaN)"),
    ("s4, resize(s4, 9)", "s4, s8", "1101 (-3)", "1101 (-3)", "0000_1101 (13)"),
    ("s4, minus_three", "s4, 13", "1101 (-3)", "1101 (-3)", "13 (0_1101)"),
    ("minus_three, s4", "13, s4", "-3 (1101)", "13 (0_1101)", "1101 (-3)"),
    ("one, one", "one, zero", "1", "1", "0"),
    ("one, true", "one, false", "1", "1", "false"),
    ("false, zero", "true, unknown", "false", "true", "X"),
    ("true, five = 5", "true, five = 4", "true", "true", "false"),
    ("character'('a'), character'('a')", "character'('a'), character'('b')", "a", "a", "b"),
    ('string\'("ab"), string\'("ab")', 'string\'("ab"), string\'("abc")', "ab", "ab", "abc"),
    ("2.5, 2.5", "2.5, -1.5", "2.5", "2.5", "-1.5"),
    ("1 ns, 1000 ps", "1 ns, 2 ns", "1 ns", "1 ns", "2 ns"),
    ("0 ns, 0 sec", "9000 sec + 10 ns, -12 us", "0 fs", "9000000000010 ns", "-12 us"),
    ("5 us + 1 fs, 5 us + 1 fs", "60 ms, 61 ps", "5000000001 fs", "60 ms", "61 ps"),
]
# The other checks: statements that pass and that fail, and their names in the log.
OTHERS = [("check(five = 5%s)", "check(five = 4%s)", "Check"), ("check_true(five = 5%s)", "check_true(five = 4%s)", "True check"),
          ("check_false(five = 4%s)", "check_false(five = 5%s)", "False check"),
          ("check_passed%s", "check_failed%s", "Unconditional check")]

BENCH = """library ieee;
use ieee.std_logic_1164.all;
use ieee.numeric_std.all;
library vunit_lib;
context vunit_lib.vunit_context;
entity tb is
  generic (runner_cfg : string);
end entity;
architecture sim of tb is
  constant u4 : unsigned(3 downto 0) := "0101";
  constant u8 : unsigned(0 to 7) := "00000110";
  constant v4 : std_logic_vector(3 downto 0) := "01X1";
  constant s4 : signed(3 downto 0) := "1101";
  constant s8 : signed(7 downto 0) := "00001101";
  constant five : natural := 5;
  constant four : natural := 4;
  constant minus_three : integer := -3;
  constant one : std_logic := '1';
  constant zero : std_logic := '0';
  constant unknown : std_logic := 'X';
begin
  main : process
  begin
    test_runner_setup(runner, runner_cfg);
%s
    test_runner_cleanup(runner);
  end process;
end architecture;
"""


def passing_and_failing():
    """The statements of each check that passes and of one that fails, and the line of the log for the latter."""
    for passing, failing, _, wrong, wanted in EQUAL:
        yield f"check_equal({passing})", f"check_equal({failing})", f"Equality check failed - Got {wrong}. Expected {wanted}."
    for passing, failing, name in OTHERS:
        # (a text beside it is said in place of the name)
        yield passing % "", failing % "", f"{name} failed"
