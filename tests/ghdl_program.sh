#!/bin/sh
# Benches that the program runs with GHDL: each kind with the verdicts of its cases by hand, and stops of the program while
# they run. Skipped where ghdl isn't there, or isn't the one that is supported.
. "$TOP/tests/support/ghdl_parts.sh"
parts ghdl_program ghdl_program_stops
