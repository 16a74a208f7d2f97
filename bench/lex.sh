#!/usr/bin/env bash
# Compares the proved scanner with a plain C tokenizer on 4,000,000 bytes of generated VHDL.
set -e
. "$(dirname "$0")/scanner.sh" compare
python3 generate.py 4000000 >"$work/text.vhd"
"$work/compare" "$work/text.vhd" "${1:-51}"
