#!/bin/sh
# wrappers/take_vunit over a made tree in the layout of VUnit, and over a real VUnit if pip can fetch one: what it copies and
# refuses, and the projects of VUnit's users over the copy. Skipped where ghdl isn't there, or isn't the one that is supported.
. "$TOP/tests/support/ghdl_parts.sh"
parts take_vunit
if timeout 60 python3 -m pip download -q --no-deps --disable-pip-version-check -d fetched vunit_hdl >pip.log 2>&1; then
    python3 -m zipfile -e fetched/*.whl real_vunit
    mkdir real
    (cd real && REAL=$PWD/../real_vunit python3 "$TOP/tests/support/take_vunit.py")
else
    echo "not tried: a real VUnit, which pip can't fetch here"
fi
