#!/usr/bin/env bash
# Compares the proved scanner, outline and references together with a plain C tokenizer, which does the first alone, on
# 4,000,000 bytes of generated VHDL. Both read tokens of the same text; the plain one makes no units and references.
#
# usage: refs.sh [ROUNDS]
set -e
. "$(dirname "$0")/scanner.sh" refs
# up to the end of the last whole unit
last='import sys; text = sys.stdin.read(); print(text[: text.rindex("end architecture rtl;") + 21])'
python3 generate.py 4000000 | python3 -c "$last" >"$work/text.vhd"
"$work/refs" "$work/text.vhd" "${1:-51}"
