#!/bin/sh
# The program under wrappers/vunit_configs, with a simulator that does what its words say: names, verdicts, text, reports, lists and
# exports by hand; tables that are refused; and simulators that end in any way.
. "$TOP/tests/support/needs.sh"
needs python3
set -e
PYTHONDONTWRITEBYTECODE=1
PYTHONPATH=$TOP/tests/support
export PYTHONDONTWRITEBYTECODE PYTHONPATH
python3 "$TOP/tests/support/vunit_configs.py"
