#!/bin/sh
# GHDL as a compiler, by wrappers/ghdl_analyse: comments, the wrapper alone, which files GHDL needs, which are compiled after an
# edit of one that others use, the program over projects that it compiles, and the session of docs/user/GHDL.md. Skipped where
# ghdl isn't there, or isn't the one that is supported.
. "$TOP/tests/support/ghdl_parts.sh"
parts ghdl_comments ghdl_interpreters ghdl_wrapper ghdl_needs ghdl_requests ghdl_runs
sh "$TOP/tests/support/session.sh" docs/user/GHDL.md "Compile with GHDL"
