# Read by bin/vunit_run and by the launcher of a package: how a program is run.

# Becomes the program at a path, with the words behind it. Each start has a number, with which simulators leave what a report needs
# of their runs. Where VUNIT_REPORT names a file, a report of the run goes there.
run_program() {
    # (a report that starts the launcher has a number already)
    VUNIT_RUN_ID=${VUNIT_REPORT_RUN-}
    [ -n "$VUNIT_RUN_ID" ] || read -r VUNIT_RUN_ID 2>/dev/null </proc/sys/kernel/random/uuid || VUNIT_RUN_ID=$(date +%s%N)-$$
    export VUNIT_RUN_ID
    unset VUNIT_REPORT_RUN
    # (a write over the limit of a file's size is then a fault that the program names; compilers and simulators inherit this)
    trap '' XFSZ
    [ -z "${VUNIT_REPORT-}" ] || exec "$bin/../wrappers/vunit_report" --around "$VUNIT_REPORT" "$@"
    exec "$@"
}
