#!/usr/bin/env bash
# Prints the seconds that the visible libraries of hostile projects take. 4,096 contexts in a ring, in three orders. 2,700
# contexts that each refer to all, which is 7,290,000 references. A file of 1 and of 4 MB that names libraries in one half and
# has packages in the other.
#
# usage: scope.sh [ROUNDS]
set -e
. "$(dirname "$0")/scanner.sh" scope
"$work/scope" "${1:-5}"
