#!/bin/sh
# The table of random projects that tests_project reads, and the phrases that its capitals stand for, are those
# of the plain program that made them.
. "$TOP/tests/support/needs.sh"
needs python3
PYTHONPATH=$TOP/tests/support exec python3 -B - "$TOP/crates/tests_project/src/tests/random_projects.rt" <<'END'
import re, sys

import random_projects

with open(sys.argv[1]) as file:
    text = file.read()
table = re.search(r'RANDOM_ROWS: &\[u8\] =\s*b"(.*?)";\n', text, re.S)[1].replace("\\\\", "\\").splitlines()
for seed, row in enumerate(table):
    if row != random_projects.row_of(seed):
        sys.exit(f"row {seed} is\n{row}\nand not\n{random_projects.row_of(seed)}")
phrases = dict(re.findall(r"b'([A-Z])' => b\"(.*)\",\n", text))
if phrases != random_projects.PHRASES:
    sys.exit(f"the phrases are {phrases}\nand not {random_projects.PHRASES}")
if len(table) < 100:
    sys.exit(f"there are {len(table)} rows")
END
