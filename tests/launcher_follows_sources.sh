# A program is of the present texts and toolchain, whatever their times say, and isn't built again without need.
. "$TOP/tests/support/launcher.sh"

shows() {
    try "$launcher" -c "$show"
    same "$1: status" "$status" 0
    same "$1: the program" "$(printf '%s\n' "$said" | tail -n 1)" "$2"
    same "$1: builds" "$(builds)" "$3"
}

shows "nothing built" "// first" 1

# other bytes of the same length with the old times, as cp -p or an unpacked archive leaves them
printf '// other\n' >other
touch -r "$main" other
sleep 2.1
"$launcher" -c : 2>/dev/null
cp -p other "$main"
shows "another text with the old times" "// other" 2

touch -d 2001-02-03 "$main"
shows "another time" "// other" 2
printf '// first\n' >"$main"
shows "the earlier text" "// first" 2

echo 'rattle-kit-2 of the tests' >notes/version
touch kit/bin/rt
shows "another toolchain" "// first" 3
echo '-- another proof' >repo/crates/low/proofs/Lib.antt
shows "another proof" "// first" 4
mv repo/crates/low/specs/Lib.antt repo/crates/low/specs/Other.antt
shows "a file with another name" "// first" 5
rm repo/crates/low/specs/Other.antt
shows "a file less" "// first" 6
echo 'Handles allowed: none.' >repo/HANDLES
shows "other handles" "// first" 7

# after a change of a building script the checked program is built anew, and the proved one stays
echo '# otherwise' >>repo/bin/checked.sh
shows "another script" "// first" 8
prove
same "proofs" "$(proofs)" 1
for script in checked proved start programs; do
    echo '# otherwise' >>"repo/bin/$script.sh"
    shows "another $script.sh, proved" "// first" 8
done
prove
same "proofs with other scripts" "$(proofs)" 1

# a change that comes while it is built
mkdir notes/wait
echo '// before' >"$main"
"$launcher" -c "$show" >said 2>&1 &
await grep -q 'is built first' said
await grep -q 'before' repo/.git/vunit_checked/sources/crates/vunit_run/src/main.rt
await sh -c '[ "$(grep -c "^try" notes/calls)" = 9 ]'
echo '// after' >"$main"
rmdir notes/wait
wait $!
has "a change during the build" "$(cat said)" "the sources changed meanwhile"
same "a change during the build" "$(tail -n 1 said)" "// after"

# and while it is proved
mkdir notes/wait
echo '// early' >"$main"
repo/bin/prove >said 2>&1 &
await grep -q 'early' repo/.git/vunit_run/work/crates/vunit_run/src/main.rt repo/.git/vunit_run/sources/crates/vunit_run/src/main.rt
await sh -c '[ "$(grep -c "^all" notes/calls)" = 2 ]'
echo '// late' >"$main"
rmdir notes/wait
wait $!
has "a change during the proof" "$(cat said)" "the sources changed meanwhile"
try "$launcher" -c "$show; $show_kind"
same "a change during the proof" "$status $said" "0 // late
kind: proved"
