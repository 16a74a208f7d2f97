#!/bin/sh
# Names that are not UTF-8 and links that cannot be followed fail a listing or a read by name, wherever they lie: no file is
# passed over without a word. Then random folders are listed, and each listing is compared with what find finds.
. "$TOP/tests/support/needs.sh"
needs python3 find
PYTHONPATH=$TOP/tests/support exec python3 -B "$TOP/tests/support/odd_names.py"
