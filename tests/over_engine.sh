#!/bin/sh
# wrappers/over_engine over engines that are scripts of this test. Whatever these print, change, cut or end with, only a
# command's whole answer counts. Whatever ends the wrapper leaves nothing behind. The program over it builds the same as without
# it. No engine is needed.
. "$TOP/tests/support/needs.sh"
needs python3 flock setsid
PYTHONPATH=$TOP/tests/support
PYTHONDONTWRITEBYTECODE=1
export PYTHONPATH PYTHONDONTWRITEBYTECODE
set -e
# (they wait more than they work)
parts=
for part in engine_rows engine_ends engine_program; do
    mkdir "$part"
    (cd "$part" && exec python3 "$TOP/tests/support/$part.py") &
    parts="$parts $!"
done
failed=0
for part in $parts; do
    wait "$part" || failed=1
done
exit $failed
