# Without a program of the present sources, the status is 126, or 127 without rt, and never one of the program's.
. "$TOP/tests/support/launcher.sh"
. "$TOP/tests/support/needs.sh"

refuses() {
    try env PATH="${4:-$PATH}" "$launcher" -c "$show"
    same "$1: status" "$status" "$2"
    has "$1" "$said" "$3"
}

without_rt=$(path_without rt)
without_flock=$(path_without flock)
# (nothing else of PATH, where another command rt may lie)
own=$(path_without other)
refuses "no rt and no program" 127 "the command rt of the Rattle toolchain is missing" "$without_rt"
same "no rt and no program: what is made" "$(ls repo)" "$(printf 'HANDLES\nbin\ncrates\ncrates.txt\nexamples')"
try env PATH="$without_rt" repo/bin/prove
same "no rt, a proof" "$status" 127
try repo/bin/prove --other
same "another word for a proof" "$status $(printf '%s\n' "$said" | head -n 1)" "2 usage: prove"
try repo/bin/prove --sum --check
same "two words for a proof" "$status" 2

mv repo/HANDLES handles
refuses "no HANDLES" 126 "not all of crates.txt, HANDLES"
mv handles repo/HANDLES
mv notes/version version
refuses "no version" 127 "the command rt of the Rattle toolchain is missing, so the program cannot be built ($own/rt is another command)" "$own"
mv version notes/version
echo text >repo/out.kept
rm -rf repo/out
mv repo/out.kept repo/out
refuses "a file in the place of the folder" 126 "cannot be written"
try repo/bin/prove
same "a file in the place of the folder, a proof" "$status" 126
rm repo/out
for part in sources programs start checked; do
    mv repo/bin/$part.sh away
    refuses "a launcher without $part.sh" 126 "bin/$part.sh cannot be read"
    mv away repo/bin/$part.sh
done

# another processor, and another C library: at once
mkdir machine
printf '#!/bin/sh\necho aarch64\n' >machine/uname
chmod 755 machine/uname
: >notes/calls
refuses "another processor" 126 "the program runs on x86-64 processors alone, and this one is aarch64" "$PWD/machine:$PATH"
try env PATH="$PWD/machine:$PATH" repo/bin/prove
same "another processor, a proof" "$status $(grep -v version notes/calls)" "126 "
sed -i 's#^loader=.*#loader=/lib64/missing.so#' repo/bin/sources.sh
refuses "another C library" 126 "the program needs the C library of GNU (glibc) for x86-64, whose /lib64/missing.so is missing"
cp "$TOP/bin/sources.sh" repo/bin

# (the checked program isn't built, so it is proved, which fails too)
echo '// BROKEN' >"$main"
refuses "a first build that fails" 126 "error: it is broken"
has "a first build that fails" "$said" "no checked program can be built (the front end of rt try gave no module: src/main.rt:1:1: error: it is broken; see"
has "a first build that fails" "$said" "the program was not built: not everything is proved, or"
same "programs" "$(ls repo/out)" "build.log
checked.log
lock
prove.lock"
try repo/bin/prove
same "a proof that fails" "$status" 126
has "a proof that fails" "$said" "error: it is broken"

echo '// first' >"$main"
"$launcher" -c : 2>/dev/null
program=$(echo repo/out/checked-*/vunit_run)
echo '// BROKEN again' >"$main"
refuses "a later build that fails" 126 "the program was not built"
same "the last program" "$("$program" -c "$show")" "// first"
echo '// first' >"$main"
same "the last program with its sources" "$("$launcher" -c "$show" 2>/dev/null)" "// first"

# without rt the program of the same sources runs, and no other
unproved="vunit_run: checked build, NOT PROVED: there is no PROVED to read"
same "no rt, the same sources" "$(PATH=$without_rt "$launcher" -c "echo it runs" 2>&1)" "$unproved
it runs"
touch "$main"
same "no rt, another time" "$(PATH=$without_rt "$launcher" -c "echo it runs" 2>&1)" "$unproved
it runs"
rm -f repo/out/current
same "no rt, no stamp" "$(PATH=$without_rt "$launcher" -c "echo it runs" 2>&1)" "$unproved
it runs"
prove
rm -f repo/out/current
same "no rt, no stamp, a proof" "$(PATH=$without_rt "$launcher" -c "$show_kind" 2>&1)" "kind: proved"
echo '// second' >"$main"
refuses "no rt, another text" 127 "the command rt of the Rattle toolchain is missing" "$without_rt"

try env PATH="$without_flock" "$launcher" -c "echo it runs"
same "no flock" "$status $(printf '%s\n' "$said" | tail -n 1)" "0 it runs"
has "no flock" "$said" "the command flock is missing"

# what can't be written, as somebody else
nobody=
if [ "$(id -u)" = 0 ]; then
    nobody="setpriv --reuid=65534 --regid=65534 --clear-groups"
    needs setpriv
    $nobody test -r "$main" || skip "nobody cannot read here"
fi
for kind in checked proved; do
    [ "$kind" = checked ] || { echo '// second' >"$main"; prove; }
    chmod -R a-w repo/out
    try $nobody env -u HOME VUNIT_RUN_QUIET=0 "$launcher" -c "$show; $show_kind"
    same "a folder that cannot be written" "$status $(printf '%s\n' "$said" | tail -n 2)" "0 // second
kind: $kind"
    echo '// third' >"$main"
    try $nobody "$launcher" -c "$show"
    same "a folder that cannot be written, another text" "$status" 126
    has "a folder that cannot be written, another text" "$said" "cannot be written to build one"
    try $nobody repo/bin/prove
    same "a folder that cannot be written, a proof" "$status" 126
    chmod -R u+w repo/out
done
# without HOME
try env -u HOME "$launcher" -c "$show"
same "no HOME" "$status $(printf '%s\n' "$said" | tail -n 1)" "0 // third"
