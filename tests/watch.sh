#!/bin/sh
# wrappers/vunit_watch: which edits cause a run, and the lines about failures, changes and signals during a run. Other runs in
# the folder, starts that meet before the store is locked, and a hundred saves with the language server, the watch and a run in
# a terminal.
. "$TOP/tests/support/needs.sh"
needs python3 tomllib strace flock
PYTHONPATH=$TOP/tests/support
PYTHONDONTWRITEBYTECODE=1
export PYTHONPATH PYTHONDONTWRITEBYTECODE
exec python3 "$TOP/tests/support/watch_trial.py" edits scan failures endings words other_runs turns at_once
