#!/bin/sh
# The checks of VUnit's interface that wrappers/vunit_lib has, each in a bench of its own, as tests/ghdl_vunit_calls.sh tries the other
# calls. Skipped where ghdl isn't there, or isn't the one that is supported.
. "$TOP/tests/support/ghdl_parts.sh"
python3 "$TOP/tests/support/vunit_calls.py" check_pkg checker_pkg
