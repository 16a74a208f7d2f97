#!/bin/sh
# How wrappers/ghdl_bench ends: over invalid requests and words that it refuses, by stops at any moment, and over restored
# libraries as GHDL does over its own. Skipped where ghdl isn't there, or isn't the one that is supported.
. "$TOP/tests/support/ghdl_parts.sh"
parts ghdl_bench_requests ghdl_bench_stops ghdl_plain
