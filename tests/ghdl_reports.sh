#!/bin/sh
# Reports of runs with GHDL by wrappers/vunit_report, of whole runs, killed ones, one bench after all of them, and on another machine;
# and what a run records and keeps.
# Skipped where ghdl isn't there, or isn't the one that is supported.
. "$TOP/tests/support/ghdl_parts.sh"
needs pgrep
parts ghdl_reports ghdl_records
