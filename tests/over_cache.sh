#!/bin/sh
# wrappers/over_cache over a compiler that is a script of this test. The request decides, byte for byte, whatever the folder
# holds, refuses or loses; and wherever a start is killed, no wrong answer follows. No GHDL is needed.
#
# KILLS is the number of kills at random moments, and TESTS that of tests whose entries are measured.
. "$TOP/tests/support/cache_parts.sh"
parts cache_rows cache_kills cache_sizes
