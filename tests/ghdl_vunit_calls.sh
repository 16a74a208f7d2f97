#!/bin/sh
# The calls of VUnit's interface that wrappers/vunit_lib has, except checks, each in a bench of its own. The bench compiles,
# passes and fails as VUnit's users know it, and the tables of docs/user/MOVING.md say no more than these rows. Also which
# packages of the library a bench gets. Skipped where ghdl isn't there, or isn't the one that is supported.
. "$TOP/tests/support/ghdl_parts.sh"
# (no name of a package has a blank)
python3 "$TOP/tests/support/vunit_calls.py" $(ls "$TOP/tests/data/vunit_calls" | sed -n '/^check/!s/\.txt$//p')
parts ghdl_short_packages
