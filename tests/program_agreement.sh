#!/bin/sh
# Projects of benches by chance, for a minute: list, export, text, JUnit report and a second run agree, and the verdicts are the
# ones that the comments of the sources ask for. It says how much was tried.
. "$TOP/tests/support/needs.sh"
needs python3
PYTHONPATH=$TOP/tests/support exec python3 -B "$TOP/tests/support/agreement.py"
