"""A project as users have it. Its clock stands still, so its second case passes with the simulator that comes with the program,
which simulates nothing, and fails with one that does."""

FILES = {
    "vunit.toml": """external = ["unisim"]

[[library]]
name = "lib"
files = ["src/*.vhd"]

[[library]]
name = "tb_lib"
files = ["tb/*.vhd"]
""",
    "src/counter_pkg.vhd": "package counter_pkg is\n  subtype count_t is natural range 0 to 15;\nend package counter_pkg;\n",
    "src/counter.vhd": """library ieee;
use ieee.std_logic_1164.all;
use work.counter_pkg.all;
entity counter is
  port (clk : in std_logic; q : out count_t);
end entity counter;
architecture rtl of counter is
begin
  q <= 0 when clk = '0' else 1;
end architecture rtl;
""",
    "tb/tb_counter.vhd": """library ieee;
use ieee.std_logic_1164.all;
library vunit_lib;
context vunit_lib.vunit_context;
library lib;
use lib.counter_pkg.all;
entity tb_counter is
  generic (runner_cfg : string);
end entity;
architecture sim of tb_counter is
  signal clk : std_logic := '0';
  signal q : count_t;
begin
  dut : entity lib.counter port map (clk => clk, q => q);
  main : process
  begin
    test_runner_setup(runner, runner_cfg);
    while test_suite loop
      if run("reset") then
        check_equal(q, 0);
      elsif run("count & wrap") then
        check_equal(q, 1);
      end if;
    end loop;
    test_runner_cleanup(runner);
  end process;
end architecture;
"""}
