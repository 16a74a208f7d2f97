#!/bin/sh
# The files that benches read, as wrappers/vunit_data lists them over the program.
. "$TOP/tests/support/needs.sh"
needs python3
set -e
PYTHONDONTWRITEBYTECODE=1
export PYTHONDONTWRITEBYTECODE
python3 "$TOP/tests/support/vunit_data.py"
