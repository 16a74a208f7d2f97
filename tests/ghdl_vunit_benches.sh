#!/bin/sh
# Projects as VUnit's users write them, run by the program with GHDL: each passes unchanged, and its cases find a fault in its
# design. Skipped where ghdl isn't there, or isn't the one that is supported.
. "$TOP/tests/support/ghdl_parts.sh"
parts vunit_benches
