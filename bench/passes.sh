#!/usr/bin/env bash
# Opens a store of 1,024 passes over 1,025 files with artefacts of 8,192 bytes, and lists these files. Prints how long that takes,
# beside a plain copy of the store's bytes and a comparison of all artefacts. Then it prints the time of 1,024 look-ups, and the
# memory beside the store's bytes.
#
# usage: passes.sh [ROUNDS]
set -e
. "$(dirname "$0")/scanner.sh" passes
"$work/passes" "${1:-15}"
