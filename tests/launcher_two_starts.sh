# Two starts at once build once, and so do two proofs; one that is stopped leaves the next to build. A start waits for no proof, and waits
# for a run of a watch.
. "$TOP/tests/support/launcher.sh"
. "$TOP/tests/support/needs.sh"
needs flock

mkdir notes/wait
"$launcher" -c "$show; exit 3" >one 2>&1 &
one=$!
await grep -q '^try' notes/calls
"$launcher" -c "$show; exit 4" >two 2>&1 &
two=$!
await grep -q 'waiting for another start' two
rmdir notes/wait
status=0
wait "$one" || status=$?
same "the first" "$status $(tail -n 1 one)" "3 // first"
status=0
wait "$two" || status=$?
same "the second" "$status $(tail -n 1 two)" "4 // first"
same "builds" "$(builds)" 1

mkdir notes/wait
: >notes/calls
echo '// second' >"$main"
for ends in TERM:143 HUP:129; do
    "$launcher" -c "$show" >one 2>&1 &
    one=$!
    await grep -q '^try' notes/calls
    kill -"${ends%:*}" "$one"
    status=0
    wait "$one" || status=$?
    same "a start that is stopped" "$status" "${ends#*:}"
    # rt has the lock while it runs
    rmdir notes/wait
    await flock -n repo/out/lock true
    mkdir notes/wait
    : >notes/calls
    same "what is left" "$(find repo/out repo/.git -name 'new-*' -o -name 'vunit_checked')" ""
done
rmdir notes/wait
try "$launcher" -c "$show"
same "the next" "$status $(printf '%s\n' "$said" | tail -n 1)" "0 // second"

# a proof, beside which other sources are built and run
mkdir notes/wait
repo/bin/prove >proof 2>&1 &
proof=$!
await grep -q '^all' notes/calls
repo/bin/prove >other_proof 2>&1 &
other=$!
await grep -q 'waiting for another proof' other_proof
try "$launcher" -c "$show; $show_kind"
same "a start beside a proof" "$status $(printf '%s\n' "$said" | tail -n 2)" "0 // second
kind: checked"
rmdir notes/wait
wait "$proof" && wait "$other"
same "proofs" "$(proofs)" 1
try "$launcher" -c "$show; $show_kind"
same "the start after the proof" "$status $said" "0 // second
kind: proved"

# a build beside a proof of the same sources: both come to their ends, and the proved one runs
echo '// third' >"$main"
: >notes/calls
mkdir notes/wait
repo/bin/prove >proof 2>&1 &
proof=$!
await grep -q '^all' notes/calls
"$launcher" -c "$show; $show_kind" >one 2>&1 &
one=$!
await grep -q '^try' notes/calls
rmdir notes/wait
wait "$proof" && wait "$one"
same "a build beside a proof" "$(grep -c '^// third$' one) $(builds) $(proofs)" "1 1 1"
sleep 2.1
for turn in first second; do
    try "$launcher" -c "$show; $show_kind"
    same "the $turn start after both" "$status $said" "0 // third
kind: proved"
done

# a proof that is stopped
echo '// fourth' >"$main"
: >notes/calls
mkdir notes/wait
repo/bin/prove >proof 2>&1 &
proof=$!
await grep -q '^all' notes/calls
kill -TERM "$proof"
status=0
wait "$proof" || status=$?
same "a proof that is stopped" "$status $(find repo/out -name 'new-*')" "143 "
rmdir notes/wait
await flock -n repo/out/prove.lock true
try repo/bin/prove
same "the next proof" "$status" 0

# A start waits for a run of a watch in its folder.
mkdir -p folder/vunit_out
: >folder/vunit_out/watch
(flock 9; exec sleep 300) 9<folder/vunit_out/watch &
holder=$!
await sh -c '! flock -s -n folder/vunit_out/watch true'
(cd folder && exec "$launcher" -c "$show; exit 6") >one 2>&1 &
one=$!
await grep -q '^vunit_run: waiting for a run of vunit_watch in this folder$' one
kill "$holder"
status=0
wait "$one" || status=$?
same "a start beside a watch" "$status $(tail -n 1 one)" "6 // fourth"
