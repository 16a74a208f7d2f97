#!/bin/sh
# Hooks of wrappers/ghdl_bench: what they are told, what they fail, their limits, and what they leave behind. Skipped where ghdl isn't
# there, or isn't the one that is supported.
. "$TOP/tests/support/ghdl_parts.sh"
parts ghdl_hooks
