#!/bin/sh
# The readers of the tools beside the program: patterns of names and paths, the generics of an entity, the words of ghdl_bench,
# TOML. Also command lines of the program, compared with the program's own messages about them.
. "$TOP/tests/support/needs.sh"
needs python3
set -e
PYTHONDONTWRITEBYTECODE=1
export PYTHONDONTWRITEBYTECODE
python3 "$TOP/tests/support/tool_readers.py"
python3 "$TOP/tests/support/tool_words.py"
