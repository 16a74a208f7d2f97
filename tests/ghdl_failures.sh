#!/bin/sh
# The texts about benches that fail with GHDL: the last line, which has the place and the cause, and the lines before it.
# Skipped where ghdl isn't there, or isn't the one that is supported.
. "$TOP/tests/support/ghdl_parts.sh"
parts ghdl_failures
