# The launcher starts through links, below odd folders, without PATH, beside another command that is named rt. It refuses links
# among the sources, writes only to git's folders, and has writes over a limit fail.
. "$TOP/tests/support/launcher.sh"
. "$TOP/tests/support/needs.sh"

repo/bin/prove --sum 2>/dev/null
VUNIT_RUN_QUIET=1
export VUNIT_RUN_QUIET
: >notes/calls

shows() {
    same "$1: status and program" "$status $(printf '%s\n' "$said" | tail -n 1)" "0 $2"
    same "$1: builds" "$(builds)" "$3"
}

# through a link to the folder bin, built and not
mkdir other
ln -s ../repo/bin other/bin
try other/bin/vunit_run -c "$show"
shows "a link to bin" "// first" 1
try other/bin/vunit_run -c "$show"
shows "a link to bin, once more" "// first" 1
(cd other/bin && ./vunit_run -c "$show") >said
same "in a link to bin" "$(cat said)" "// first"
ln -s vunit_run other/bin/by_link
try other/bin/by_link -c "$show"
shows "a link in a link to bin" "// first" 1
same "what is beside the link" "$(ls other)" bin
rm repo/bin/by_link

# with a program that is there, no other command counts
sleep 2.1
"$launcher" -c :
try env -i BASH_ENV="$BASH_ENV" VUNIT_RUN_QUIET=1 "$launcher" -c "$show"
shows "no environment" "// first" 1
mkdir foreign
printf '#!/bin/sh\ncat >>"%s/foreign/asked"\necho "rt 5.0.3"\n' "$PWD" >foreign/rt
chmod 755 foreign/rt
only_foreign=$(path_without rt)
for path in "$PWD/foreign:$PATH" "$PWD/foreign:$only_foreign" ":$PWD/foreign::$PATH"; do
    for turn in first second third; do
        said=$(echo 'this is the program'"'"'s' | PATH=$path "$launcher" -c "cat; $show") && status=0 || status=$?
        shows "another rt first in PATH, the $turn start" "// first" 1
        has "the input" "$said" "this is the program's"
        [ "$turn" != first ] || sleep 2.1
    done
done
same "what the other rt read" "$(cat foreign/asked)" ""
rm repo/out/current
try env -i BASH_ENV="$BASH_ENV" VUNIT_RUN_QUIET=1 "$launcher" -c "$show"
shows "no environment, no stamp" "// first" 1
# (a shell without PATH has one of its own, in which the toolchain isn't looked for)
# where it has to be built, the toolchain's is found behind the other
echo '// second' >"$main"
try env -i "$launcher" -c "$show"
same "no environment, other sources" "$status $(builds)" "127 1"
try env PATH="$PWD/foreign:$only_foreign" "$launcher" -c "$show"
same "only another rt" "$status" 127
has "only another rt" "$said" "$PWD/foreign/rt is another command"
try env PATH="$PWD/foreign:$PATH" "$launcher" -c "$show"
shows "another rt, and a build" "// second" 2
has "another rt, and a build" "$said" "by $PWD/kit/bin/rt (rattle-kit-1 of the tests)"
try env -u PATH "$launcher" -c "$show"
shows "no PATH after that" "// second" 2

# below folders with odd names
# shellcheck disable=SC1003
for name in 'a\b' 'a\nb\' 'a  b' 'a"b'"'"'$(c)' '-n' 'a%sb' "$(printf 'a\351b')"; do
    mkdir "./$name"
    cp -R repo "./$name/repo"
    rm -rf "./$name/repo/out"
    before=$(builds)
    try "./$name/repo/bin/vunit_run" -c "$show"
    shows "below $name" "// second" $((before + 1))
    try "$PWD/$name/repo/bin/vunit_run" -c "$show"
    shows "below $name, once more" "// second" $((before + 1))
    try "./$name/repo/bin/prove"
    same "below $name, a proof" "$status $(builds)" "0 $((before + 1))"
    try "./$name/repo/bin/vunit_run" -c "$show_kind"
    shows "below $name, proved" "kind: proved" $((before + 1))
    rm -rf "./$name"
done

# editors' backup files are not sources, and not looked at
before=$(builds)
echo '// BROKEN' >"$main~"
echo '// BROKEN' >"${main%/*}/.main.rt.swp"
ln -s nobody@nowhere "${main%/*}/.#main.rt"
mkdir "${main%/*}/.folder"
echo '// BROKEN' >"${main%/*}/.folder/a.rt"
try "$launcher" -c "$show"
shows "files of editors" "// second" "$before"
echo '// third' >"$main"
try "$launcher" -c "$show"
shows "files of editors, and a build" "// third" $((before + 1))
prove
same "files of editors in the copy" "$(find repo/.git/vunit_run/sources repo/.git/vunit_run/work -name '*~' -o -name '.*')" ""
rm -r "$main~" "${main%/*}/.main.rt.swp" "${main%/*}/.#main.rt" "${main%/*}/.folder"

# links among the sources
refuses_link() {
    try "$launcher" -c "$show"
    same "$1 as a link: status" "$status" 126
    has "$1 as a link" "$said" "$1 is neither a file nor a folder"
    rm "repo/$1"
    mv away "repo/$1"
}
for path in crates/vunit_run/src/main.rt crates/low/specs crates/low crates.txt HANDLES crates; do
    mv "repo/$path" away
    ln -s "$PWD/away" "repo/$path"
    refuses_link "$path"
done
mkfifo repo/crates/low/src/pipe
try "$launcher" -c "$show"
same "a pipe: status" "$status" 126
has "a pipe" "$said" "crates/low/src/pipe is neither a file nor a folder"
rm repo/crates/low/src/pipe
try "$launcher" -c "$show"
shows "without links" "// third" $((before + 1))

# a file .git counts only where it names a folder of git's
mkdir victim
echo text >victim/text
mkdir victim/vunit_run victim/vunit_run/sources
rm -rf repo/.git
echo "gitdir: $PWD/victim" >repo/.git
echo '// fourth' >"$main"
try "$launcher" -c "$show"
shows "a file .git that names another folder" "// fourth" $((before + 2))
same "what is in that folder" "$(find victim | LC_ALL=C sort | tr '\n' ' ')" "victim victim/text victim/vunit_run victim/vunit_run/sources "

# writes over the limit of a file's size fail, and don't end the program
try sh -c 'ulimit -f 1; exec "$0" -c "head -c 100000 /dev/zero >large; echo it goes on"' "$launcher"
has "a write over the limit" "$said" "it goes on"
same "a write over the limit" "$status" 0
