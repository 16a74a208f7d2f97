#!/bin/sh
# wrappers/ghdl_analyse and wrappers/ghdl_bench if the machine or a bench does its worst, also over wrappers/over_engine: a full
# or missing TMPDIR, no GHDL, GHDL that is killed or prints far too much. Kills of the keeper, the wrapper and GHDL. Each limit.
# Files in the folder of a run. Skipped where ghdl isn't there, or isn't the one that is supported.
. "$TOP/tests/support/ghdl_parts.sh"
parts ghdl_machine_faults ghdl_kills ghdl_limits ghdl_folders
