#!/bin/sh
# wrappers/over_engine over a Slurm that this test brings up on loopback, with two nodes of 32 slots. The program builds the
# same over it as here, a node is lost while compilers run on it, and whatever ends the wrapper leaves nothing in the queue.
# Where ghdl is there, its examples are compiled and run over it. Skipped where Slurm, munge or root is missing.
. "$TOP/tests/support/needs.sh"
needs python3
PYTHONPATH=$TOP/tests/support
PYTHONDONTWRITEBYTECODE=1
export PYTHONPATH PYTHONDONTWRITEBYTECODE
missing=$(python3 -c 'import own_slurm; print(own_slurm.missing())') || exit 1
[ -z "$missing" ] || skip "$missing"
exec python3 "$TOP/tests/support/slurm_runs.py"
