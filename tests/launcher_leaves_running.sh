# A program that runs keeps its file and its path while later ones are built, and is removed once it has ended. Of each kind the last
# three stay, and no kind removes another.
. "$TOP/tests/support/launcher.sh"

# shellcheck disable=SC2016
"$launcher" -c 'own=$(readlink /proc/$$/exe); until [ -e go ]; do sleep 0.05; done; "$own" -c "$0"; echo "$own"' "$show" >said 2>/dev/null &
running=$!
await sh -c 'test -e repo/out/checked-*/vunit_run'
first=$(echo "$PWD"/repo/out/checked-*/vunit_run)
await sh -c "ls -l /proc/[0-9]*/exe 2>/dev/null | grep -q '$first'"

for text in second BROKEN third fourth fifth; do
    echo "// $text" >"$main"
    status=0
    "$launcher" -c : 2>/dev/null || status=$?
    [ "$text" = BROKEN ] || same "the build of $text" "$status" 0
    [ "$text" != BROKEN ] || same "the build of $text" "$status" 126
done
same "the programs that are left" "$(ls repo/out | grep -c ^checked-)" 4
: >go
wait "$running"
same "the program that ran" "$(cat said)" "// first
$first"

echo '// sixth' >"$main"
"$launcher" -c : 2>/dev/null
same "the programs that are left" "$(ls repo/out | grep -c ^checked-)" 3
[ ! -e "$first" ] || { echo "the ended program is still there"; exit 1; }

# a proved program stays, however many are checked, and the reverse
prove
proved=$(cd repo/out && ls -d proved-*)
for text in seventh eighth ninth tenth; do
    echo "// $text" >"$main"
    "$launcher" -c : 2>/dev/null
done
same "what stays" "$(ls repo/out | grep -c ^checked-) $(cd repo/out && ls -d proved-*)" "3 $proved"
checked=$(cd repo/out && ls -d checked-*)
for text in 11 12 13 14; do
    echo "// $text" >"$main"
    prove
done
same "what stays" "$(ls repo/out | grep -c ^proved-) $(cd repo/out && ls -d checked-*)" "3 $checked"
[ ! -e "repo/out/$proved" ] || { echo "the fourth proved program is still there"; exit 1; }
try "$launcher" -c "$show; $show_kind"
same "a start" "$status $said" "0 // 14
kind: proved"
