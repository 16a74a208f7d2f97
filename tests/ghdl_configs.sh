#!/bin/sh
# Configurations of benches by wrappers/vunit_configs with GHDL. Skipped where ghdl isn't there, or isn't the one that is supported.
. "$TOP/tests/support/ghdl_parts.sh"
parts ghdl_configs
