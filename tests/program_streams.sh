# A failed output is a fault with status 3, which standard error names, as is a child's unreadable input; otherwise the input is
# not read.
. "$TOP/tests/support/program.sh"
project vunit.csv 'lib,a.vhd\n' a.vhd 'package a is end;\n'

# Compares status and standard error of the last run with those of a fault of the output, or of what is named, with its cause.
faulty() {
    stream=output
    [ "${3-out}" = out ] || stream=input
    if [ "$(cat status)" != 3 ] || [ "$(sed -E -f "$TOP/tests/support/told.sed" err)" != "vunit_run: fault of ${3-out}
vunit_run: standard $stream: $2" ]; then
        echo "$1: status $(cat status), and on standard error:"
        cat err
        failures=$((failures + 1))
    fi
}

"$VUNIT_RUN" --compile >&- 2>err
echo $? >status
faulty "a closed output" "write: Bad file descriptor (os error 9)"
{
    # (the reader is gone by then)
    sleep 0.5
    "$VUNIT_RUN" --compile 2>err
    echo $? >status
} | :
faulty "a pipe that nobody reads" "write: Broken pipe (os error 32)"
if [ -c /dev/full ]; then
    "$VUNIT_RUN" --compile >/dev/full 2>err
    echo $? >status
    faulty "a full disk" "write: No space left on device (os error 28)"
fi
"$VUNIT_RUN" --frob >&- 2>err
echo $? >status
faulty "a closed output for the usage text" "write: Bad file descriptor (os error 9)"

while IFS='|' read -r input cause; do
    eval "\"\$VUNIT_RUN\" child-analyse $input" >said 2>err
    echo $? >status
    faulty "an input that is $input" "read: $cause" input
done <<'ROWS'
<.|Is a directory (os error 21)
<&-|Bad file descriptor (os error 9)
ROWS
if [ -s said ]; then
    echo "after a fault of the input something is said"
    failures=$((failures + 1))
fi

expect "the record is there whatever became of the output" 0 "Re-compile not needed" --compile
for closed in '<&-' '>&-' '2>&-' '<&- >&- 2>&-'; do
    rm -rf vunit_out
    eval "\"\$VUNIT_RUN\" --compile $closed" >>closed 2>&1
    expect "the record is there after a run with $closed" 0 "Re-compile not needed" --compile
done

status=0
printf 'one\ntwo\n' | { "$VUNIT_RUN" --compile >out && cat >rest; } || status=$?
if [ "$status" != 0 ] || [ "$(cat rest)" != "one
two" ]; then
    echo "status $status, and of the input is left: $(cat rest)"
    failures=$((failures + 1))
fi

[ "$failures" -eq 0 ]
