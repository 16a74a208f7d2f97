#!/bin/sh
# GHDL as a simulator, by wrappers/ghdl_bench and wrappers/vunit_lib: the library's file made anew, each check of the library
# and each kind of bench. The requests are made here, not by the program. Skipped where ghdl isn't there, or isn't the one that
# is supported.
. "$TOP/tests/support/ghdl_parts.sh"
cp -R "$TOP/wrappers/vunit_lib" made_anew
made_anew/build
diff -r "$TOP/wrappers/vunit_lib" made_anew
parts ghdl_checks ghdl_benches
