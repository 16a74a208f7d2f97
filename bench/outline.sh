#!/usr/bin/env bash
# Measures the outline of texts whose units have parentheses that don't match, at 1,048,576 and at 4,194,304 bytes. Ends
# with 1 where the larger text takes more than 5 times as long.
#
# usage: outline.sh [ROUNDS]
set -e
. "$(dirname "$0")/scanner.sh" outline
"$work/outline" "${1:-11}"
