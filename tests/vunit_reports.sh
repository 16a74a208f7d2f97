#!/bin/sh
# wrappers/vunit_report over data that this test makes: each verdict, data that are missing or aren't whole, outputs of any bytes
# and sizes, and many cases; each report by the schema of Jenkins. No simulator is needed.
. "$TOP/tests/support/needs.sh"
needs python3
PYTHONPATH=$TOP/tests/support
PYTHONDONTWRITEBYTECODE=1
export PYTHONPATH PYTHONDONTWRITEBYTECODE
exec python3 "$TOP/tests/support/report_limits.py"
