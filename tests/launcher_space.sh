# Without space, a start and a proof say in which folder, and end with 126; with space the next ones are right.
. "$TOP/tests/support/launcher.sh"
. "$TOP/tests/support/needs.sh"
if ! unshare -m true 2>/dev/null; then
    echo "not tried: file systems can't be mounted here"
    exit 0
fi
mkdir tmp small
cat >within <<'END'
. "$TOP/tests/support/same.sh"
fails() {
    mount -t tmpfs -o size="$2" none "$1"
    "$3" </dev/null >said 2>&1 && status=0 || status=$?
    same "$3 without space in $1: status" "$status" 126
    has "$3 without space in $1" "$(cat said)" "here is no space left in $PWD/$1"
    umount "$1"
}
# (a program of the tests has over a megabyte)
for size in 16k 900k; do
    for command in repo/bin/vunit_run repo/bin/prove; do
        for folder in repo/out repo/.git tmp; do
            mkdir -p "$folder"
            kept=
            if [ "$folder" = tmp ]; then
                # (it is for a repository without git's files)
                rm -rf kept
                mv repo/.git kept
                export TMPDIR=$PWD/tmp
            fi
            fails "$folder" "$size" "$command"
            [ "$folder" != tmp ] || { mv kept repo/.git; unset TMPDIR; }
            same "what is left" "$(find repo/out repo/.git tmp -name 'new-*' -o -name 'tmp.*')" ""
        done
    done
done
# with git's files a small TMPDIR does not matter
mount -t tmpfs -o size=16k none tmp
TMPDIR=$PWD/tmp repo/bin/vunit_run -c "$show" >said 2>/dev/null
same "a small TMPDIR" "$(cat said)" "// first"
TMPDIR=$PWD/tmp repo/bin/prove 2>/dev/null
umount tmp
repo/bin/vunit_run -c "$show_kind" >said 2>&1
same "the start after all" "$(cat said)" "kind: proved"
# a stamp that can't be written does not matter either
rm -f repo/out/current
mount --bind repo/out repo/out
mount -o remount,bind,ro repo/out
repo/bin/vunit_run -c "$show_kind" >said 2>&1
same "a folder out on a file system that can't be written" "$(cat said)" "kind: proved"
echo '// second' >>repo/crates/vunit_run/src/main.rt
repo/bin/vunit_run -c "$show_kind" >said 2>&1 && status=0 || status=$?
same "the same, other sources" "$status" 126
has "the same, other sources" "$(cat said)" "cannot be written to build one"
END
export show show_kind
sed -n '/^# Ends the test where two texts differ/,/^# Runs a command/p' "$TOP/tests/support/launcher.sh" >same_functions
sed -i "s#^\. .*#set -eu; . '$PWD/same_functions'#" within
unshare -m sh within
