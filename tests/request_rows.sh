#!/bin/sh
# The table of random sides that tests_store reads is that of the plain program that made it.
. "$TOP/tests/support/needs.sh"
needs python3
PYTHONPATH=$TOP/tests/support exec python3 -B - "$TOP/crates/tests_store/src/tests/random_sides.rt" <<'END'
import re, sys

import random_requests

with open(sys.argv[1]) as file:
    table = re.search(r'RANDOM_SIDES: &str =\s*"(.*?)";\n', file.read(), re.S)[1].replace("\\\n", "").splitlines()
for seed, row in enumerate(table):
    if row != random_requests.row_of(seed):
        sys.exit(f"row {seed} is\n{row}\nand not\n{random_requests.row_of(seed)}")
if len(table) < 20:
    sys.exit(f"there are {len(table)} rows")
END
