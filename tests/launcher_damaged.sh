# A changed program is built again and never run, whatever lies in its place; and a program is on the disk before it gets its
# name.
. "$TOP/tests/support/launcher.sh"
. "$TOP/tests/support/needs.sh"
needs strace

repo/bin/prove --sum 2>/dev/null
VUNIT_RUN_QUIET=1
export VUNIT_RUN_QUIET
strace -f -qq -o calls -e trace=fsync,rename,renameat,renameat2 "$launcher" -c : 2>/dev/null
program=$(echo repo/out/checked-*/vunit_run)
[ -x "$program" ] || { echo "nothing was built"; exit 1; }
folder=${program%/*}
record=$folder/record

# How many calls of this kind end well before the program gets its name, or behind that.
synced() {
    awk -v behind="$1" '/rename.*\/new-checked.[0-9]+.*\/checked-/ { found = 1; next } /fsync\(.*= 0/ && !found == !behind { count++ } END { print count + 0 }' calls
}
same "syncs of program, record and folder before the rename" "$(synced "")" 3
same "syncs of the folder that it is renamed in" "$(synced yes)" 1

# Starts once that are told from one that the program would answer: an emptied program ends with 0, as an empty script.
built=1
rebuilds() {
    built=$((built + 1))
    for turn in first second; do
        try "$launcher" -c "$show; exit 7"
        same "$1, the $turn start: status" "$status" 7
        same "$1, the $turn start: the program" "$(printf '%s\n' "$said" | tail -n 1)" "// first"
        same "$1, the $turn start: builds" "$(builds)" "$built"
    done
    # (a stamp of files that were changed just now isn't kept)
    sleep 2.1
    "$launcher" -c :
    same "$1, a later start: builds" "$(builds)" "$built"
}

sleep 2.1
"$launcher" -c :
[ -s repo/out/current ] || { echo "no stamp is kept"; exit 1; }
: >"$program"
rebuilds "an emptied program"
: >"$program"
: >repo/out/current
rebuilds "an emptied program, and an emptied stamp"
head -c 5000 "$program" >cut
cat cut >"$program"
rebuilds "a program that is cut"
head -c 5000 "$program" >cut
cat cut >"$program"
rm repo/out/current
rebuilds "a program that is cut, without a stamp"
# another program of the same size
size=$(stat -c %s "$program")
head -c "$size" /dev/zero >"$program"
rebuilds "other bytes"
: >"$record"
: >repo/out/current
rebuilds "an emptied record"
rm "$record" repo/out/current
rebuilds "no record"
rm "$program"
mkdir "$program"
rebuilds "a folder in its place"
chmod 644 "$program"
rebuilds "a program that may not be run"
for half in 1 2 3 4 5; do
    lines=$(wc -l <repo/out/current)
    head -n $((lines * half / 6)) repo/out/current >cut
    cp cut repo/out/current
    try "$launcher" -c "$show; exit 7"
    same "a stamp that is cut" "$status $said $(builds)" "7 // first $built"
done

# of a proved one the checked one takes the place, until it is proved again
prove
try "$launcher" -c "$show_kind"
same "a proved program" "$status $said" "0 kind: proved"
: >"$(echo repo/out/proved-*/vunit_run)"
try "$launcher" -c "$show_kind; exit 7"
same "an emptied proved program" "$status $said $(builds)" "7 kind: checked $built"
prove
try "$launcher" -c "$show_kind"
same "a proved program, once more" "$status $said $(proofs)" "0 kind: proved 2"

# without the toolchain nothing else is run
: >"$(echo repo/out/proved-*/vunit_run)"
: >"$program"
path=$(path_without rt)
try env PATH="$path" "$launcher" -c "exit 0"
same "an emptied program, no toolchain" "$status" 127
