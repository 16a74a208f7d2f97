# The copy that is built lies where rt ci doesn't look: with git's files, also of a worktree, and else outside, for the time. That of
# a proof stays there, and that of a checked program doesn't.
. "$TOP/tests/support/launcher.sh"

copies() {
    find repo git_of_it tmp -name crates.txt | LC_ALL=C sort | tr '\n' ' '
}

mkdir git_of_it tmp
TMPDIR=$PWD/tmp
export TMPDIR
# (rt waits, so that the copy is seen)
mkdir notes/wait
"$launcher" -c : 2>/dev/null &
await grep -q '^try' notes/calls
same "with git's folder, a checked program" "$(copies)" "repo/.git/vunit_checked/sources/crates.txt repo/crates.txt "
[ -f repo/.git/vunit_checked/MODULE.bazel ] || { echo "rt would take the copy for a part of the repository"; exit 1; }
rmdir notes/wait
wait $!
same "once it is built" "$(find repo/.git tmp)" "repo/.git
tmp"
prove
[ -f repo/.git/vunit_run/MODULE.bazel ] || { echo "rt would take the copy for a part of the repository"; exit 1; }
same "with git's folder" "$(copies)" "repo/.git/vunit_run/sources/crates.txt repo/.git/vunit_run/work/crates.txt repo/crates.txt "

rm -rf repo/.git
echo 'ref: refs/heads/main' >git_of_it/HEAD
printf 'gitdir: ../git_of_it\n' >repo/.git
echo '// second' >"$main"
"$launcher" -c : 2>/dev/null
prove
same "in a worktree" "$(copies)" "git_of_it/vunit_run/sources/crates.txt git_of_it/vunit_run/work/crates.txt repo/crates.txt "

rm -rf repo/.git git_of_it/vunit_run
echo '// third' >"$main"
mkdir notes/wait
"$launcher" -c "$show" >said 2>&1 &
await grep -q "gave\|built first" said
await sh -c 'ls -d tmp/*/sources/crates.txt'
rmdir notes/wait
wait $!
same "without git" "$(tail -n 1 said) $(copies) $(ls tmp)" "// third repo/crates.txt  "
try repo/bin/prove
same "without git, a proof" "$status $(copies) $(ls tmp)" "0 repo/crates.txt  "
echo '// BROKEN' >"$main"
try "$launcher" -c :
same "without git, a build that fails" "$status $(copies) $(ls tmp)" "126 repo/crates.txt  "
# (if there is no temporary folder either)
TMPDIR=$PWD/tmp/missing
echo '// fourth' >"$main"
try "$launcher" -c "$show"
same "without git and without TMPDIR: status" "$status" 126
has "without git and without TMPDIR" "$said" "no folder can be made to build in; is there space in $PWD/tmp/missing?"
# with git's folder it isn't needed
mkdir repo/.git
try "$launcher" -c "$show"
same "without TMPDIR" "$status $(printf '%s\n' "$said" | tail -n 1)" "0 // fourth"
