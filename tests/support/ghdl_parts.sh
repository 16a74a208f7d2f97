# Read by the scripts that need GHDL. Skips them where ghdl isn't there, or isn't the one that is supported; else gives
# `parts`, which runs such scripts of this folder, each in a folder of its own. What a script that has passed says ends with the
# GHDL that it was tried with.
. "$TOP/tests/support/needs.sh"
. "$TOP/tests/support/ghdl_named.sh"
needs ghdl python3
ghdl --version | grep -q 'mcode code generator' || skip "ghdl hasn't the code generator mcode"
PYTHONPATH=$TOP/tests/support
PYTHONDONTWRITEBYTECODE=1
export PYTHONPATH PYTHONDONTWRITEBYTECODE
trap 'status=$?; [ "$status" -ne 0 ] || tried_with; exit "$status"' EXIT
set -e

parts() {
    for part in "$@"; do
        mkdir "$part"
        (cd "$part" && python3 "$TOP/tests/support/$part.py")
    done
}
