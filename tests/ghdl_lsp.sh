#!/bin/sh
# GHDL's messages and verdicts in wrappers/vunit_lsp, each at its line. Skipped where ghdl isn't there, or isn't the one that is supported.
. "$TOP/tests/support/ghdl_parts.sh"
needs tomllib
parts lsp_ghdl
