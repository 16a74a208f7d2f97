"""Writes about this number of bytes of realistic VHDL to standard output: generate.py BYTES"""

import sys

ENTITY = """-- Copyright of nobody, file {n} of a design that was generated for measurements.
library ieee;
use ieee.std_logic_1164.all;
use ieee.numeric_std.all;

entity fifo_{n} is
  generic (
    width_g : positive := 32;   -- bits of a word
    depth_g : natural  := 2**{d}
  );
  port (
    clk, rst   : in  std_logic;
    write_en   : in  std_logic;
    write_data : in  std_logic_vector(width_g - 1 downto 0);
    read_en    : in  std_logic;
    read_data  : out std_logic_vector(width_g - 1 downto 0);
    full       : out std_logic;
    empty      : out std_logic
  );
end entity fifo_{n};

architecture rtl of fifo_{n} is
  type memory_t is array (0 to depth_g - 1) of std_logic_vector(write_data'range);
  signal memory : memory_t := (others => (others => '0'));
  signal head, tail : integer range 0 to depth_g - 1 := 0;
  signal count_r : unsigned(15 downto 0) := x"{n:04x}";
  constant name_c : string := "fifo ""{n}"" of " & integer'image(depth_g);
begin
  -- writes and reads go on side by side
  main : process (clk)
    variable next_v : integer;
  begin
    if rising_edge(clk) then
      if rst = '1' then
        head <= 0; tail <= 0;
        count_r <= (others => '0');
      else
        if write_en = '1' and count_r /= to_unsigned(depth_g, count_r'length) then
          memory(head) <= write_data;
          next_v := (head + 1) mod depth_g;
          head <= next_v;
          count_r <= count_r + 1;
        elsif read_en = '1' and count_r > 0 then
          read_data <= memory(tail);
          tail <= (tail + 1) mod depth_g;
          count_r <= count_r - 1;
        end if;
      end if;
    end if;
  end process main;

  full <= '1' when count_r = depth_g else '0';
  empty <= '1' when count_r = 0 else '0';

  checks : if {d} > 3 generate
    assert depth_g < 16#FFFF# report name_c & ": too deep at " & time'image(now) severity failure;
  end generate checks;
end architecture rtl;

"""


def text_of(size, first=0):
    """VHDL of this size, whose entities are numbered from first on."""
    parts, number = [], first
    while size > 0:
        parts.append(ENTITY.format(n=number, d=number % 9)[:size])
        size -= len(parts[-1])
        number += 1
    return "".join(parts)


if __name__ == "__main__":
    sys.stdout.write(text_of(int(sys.argv[1])))
