#!/bin/sh
# Which benches the words of wrappers/ghdl_bench reach, by the program: generics, and words of some benches alone. Skipped where ghdl
# isn't there, or isn't the one that is supported.
. "$TOP/tests/support/ghdl_parts.sh"
parts ghdl_generics
