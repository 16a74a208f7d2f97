#!/bin/sh
# The examples that name their tools are run without a warning, by the program and so by wrappers/vunit_ci. Skipped where ghdl isn't
# there, or isn't the one that is supported.
. "$TOP/tests/support/ghdl_parts.sh"
parts
PATH=$TOP/wrappers:$PATH
failures=0
for example in "$TOP"/examples/*/; do
    name=$(basename "$example")
    grep -q '^compiler = ' "$example/vunit.toml" 2>/dev/null || continue
    # (without a simulator there is no test to run)
    words=--compile
    ! grep -q '^simulator = ' "$example/vunit.toml" || words=
    cp -R "$example" "$name"
    # (some have tests that are to fail)
    status=0
    (cd "$name" && exec "$VUNIT_RUN" $words) >out 2>err || status=$?
    if [ "$status" -gt 1 ] || grep 'vunit_run: warning: ' err; then
        echo "$name: status $status, and on standard error:"
        cat err
        failures=$((failures + 1))
    fi
    ci=0
    (cd "$name" && exec "$TOP/wrappers/vunit_ci" $words) >out 2>err || ci=$?
    if [ "$ci" -ne "$status" ] || grep 'failed for warnings' err; then
        echo "$name by vunit_ci: status $ci, and on standard error:"
        cat err
        failures=$((failures + 1))
    fi
done
[ "$failures" -eq 0 ]
