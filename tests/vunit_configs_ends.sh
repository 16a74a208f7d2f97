#!/bin/sh
# wrappers/vunit_configs over a thousand configurations, ended by signals, and nested with other tools; its simulator does what its
# words say.
. "$TOP/tests/support/needs.sh"
needs python3
set -e
PYTHONDONTWRITEBYTECODE=1
PYTHONPATH=$TOP/tests/support
export PYTHONDONTWRITEBYTECODE PYTHONPATH
python3 "$TOP/tests/support/vunit_configs_ends.py"
