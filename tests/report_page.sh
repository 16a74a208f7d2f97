#!/bin/sh
# The page of wrappers/vunit_report as headless Chromium shows it: its rows and counts, its filter, no word of the console, and
# nothing that a log has in it is executed. Skipped where Chromium is missing.
. "$TOP/tests/support/needs.sh"
needs python3 chromium
PYTHONPATH=$TOP/tests/support
PYTHONDONTWRITEBYTECODE=1
export PYTHONPATH PYTHONDONTWRITEBYTECODE
exec python3 "$TOP/tests/support/report_page.py"
