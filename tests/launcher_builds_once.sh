# The first start builds a checked program, and later ones only run it. Words, input and status are the program's, and one line
# says what runs. bin/prove proves and builds the program that later starts run without a word.
. "$TOP/tests/support/launcher.sh"

repo/bin/prove --sum 2>/dev/null
: >notes/calls
checked="vunit_run: checked build: PROVED names these sources; this machine has not proved them (bin/prove does)"
try "$launcher" -c "$show"
same "status of the first start" "$status" 0
has "what the first start says" "$said" "the checked program is built first, by $PWD/kit/bin/rt (rattle-kit-1 of the tests), in 3 to 5 minutes"
same "what the first start prints" "$(printf '%s\n' "$said" | tail -n 2)" "$checked
// first"
same "calls of rt" "$(cat notes/calls)" "version
try --seconds 1 -- --no-word-of-the-program"

# a stamp of files that were changed just now isn't kept
sleep 2.1
"$launcher" -c : 2>/dev/null || exit 1
: >notes/calls
try "$launcher" -c "$show"
same "a later start" "$status $said" "0 $checked
// first"
same "calls of rt of a later start" "$(cat notes/calls)" ""
for quiet in 1 0 '' yes; do
    try env VUNIT_RUN_QUIET=$quiet "$launcher" -c 'echo "<$VUNIT_RUN_QUIET>"'
    if [ "$quiet" = 1 ]; then same "a quiet start" "$status $said" "0 <1>"; else same "no quiet start" "$status $said" "0 $checked
<$quiet>"; fi
done

# The words, the input and the status, of a checked program and of a proved one.
passes_on() {
    VUNIT_RUN_QUIET=1
    export VUNIT_RUN_QUIET
    try "$launcher" -c 'printf "<%s>" "$@"' x 'a  b' '' '*' -y
    same "the words" "$said" "<a  b><><*><-y>"
    same "the input" "$(echo text | "$launcher" -c cat)" text
    for wanted in 1 2 3 126 127 255; do
        try "$launcher" -c "exit $wanted"
        same "the program's status" "$status $said" "$wanted "
    done
    try "$launcher" --no-word-of-the-program
    same "the program's status for a word that it refuses" "$status" 2
    # through a link, from another folder
    ln -s "$launcher" there
    (cd / && "$OLDPWD/there" -c 'pwd') >place
    same "the folder that it runs in" "$(cat place)" /
    rm there
    unset VUNIT_RUN_QUIET
}
passes_on

: >notes/calls
try repo/bin/prove
same "status of the proof" "$status" 0
has "what the proof says" "$said" "the program is proved and built by $PWD/kit/bin/rt (rattle-kit-1 of the tests), with up to"
has "what the proof says of memory and disk" "$said" "each check takes up to 3 GB of memory, and all of them up to 11 GB of disk"
same "calls of rt" "$(sed 's/jobs [0-9]*/jobs N/' notes/calls)" "version
all check --jobs N
run --jobs N -- --no-word-of-the-program"
# apart isn't one of the crates that the program is made of
same "what is built side by side, and then" "$(LC_ALL=C sort repo/.git/vunit_run/beside) $(LC_ALL=C sort repo/.git/vunit_run/needed)" \
    "left: low
low:
right: low left: low
low:
right: low
vunit_run: low left right"
same "what lies in the copy" "$(ls repo/.git/vunit_run/work/crates | tr '\n' ' ')" "left low right vunit_run "
try "$launcher" -c "$show; $show_kind"
same "a start after it" "$status $said" "0 // first
kind: proved"
sleep 2.1
"$launcher" -c :
: >notes/calls
try "$launcher" -c "$show; $show_kind"
same "a later start" "$status $said" "0 // first
kind: proved"
same "calls of rt of a later start" "$(cat notes/calls)" ""
passes_on
try repo/bin/prove
same "a second proof" "$status $(sed 's/jobs.*//' notes/calls)" "0 version"
has "a second proof" "$said" "bin/vunit_run runs the proved program"
