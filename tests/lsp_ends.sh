#!/bin/sh
# wrappers/vunit_lsp with other programs, floods, garbage and kills; and the project files that it writes for other servers.
. "$TOP/tests/support/needs.sh"
needs python3 tomllib
PYTHONPATH=$TOP/tests/support
PYTHONDONTWRITEBYTECODE=1
export PYTHONPATH PYTHONDONTWRITEBYTECODE
for part in lsp_ends lsp_projects; do
    mkdir "$part"
    (cd "$part" && python3 "$TOP/tests/support/$part.py") || { echo "in $part"; exit 1; }
done
