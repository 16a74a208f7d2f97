#!/bin/sh
# wrappers/vunit_lsp, the language server, with a client that shares no code with it: each refusal and warning at its range, buffers and
# saves, tests and commands.
. "$TOP/tests/support/needs.sh"
needs python3 tomllib
PYTHONPATH=$TOP/tests/support
PYTHONDONTWRITEBYTECODE=1
export PYTHONPATH PYTHONDONTWRITEBYTECODE
for part in lsp_refusals lsp_buffers; do
    mkdir "$part"
    (cd "$part" && python3 "$TOP/tests/support/$part.py") || { echo "in $part"; exit 1; }
done
