# SIGKILL of whoever builds a program of this kind, before and after commands that it starts. Once rt has ended, no process is
# left and nobody has the lock; and who comes next has the right program. Of the moments up to MOST of each part are tried; this
# script takes each fourth of them, from the given one on, and appends the parts to the file seen.
#
# usage: killed.sh checked|proved MOST 1|2|3|4
kind=$1
most=$2
lane=$3
. "$TOP/tests/support/launcher.sh"
if [ "$kind" = checked ]; then
    command=$launcher
    lock=repo/out/lock
else
    command=$PWD/repo/bin/prove
    lock=repo/out/prove.lock
fi
# (nothing here needs what is on the device, and a sync takes long where others write much)
printf '#!/bin/sh\n' >kit/bin/sync
chmod 755 kit/bin/sync
# (two crates, so that a build has few commands)
printf 'low:\nvunit_run: low\n' >repo/crates.txt
rm -r repo/crates/left repo/crates/right repo/crates/apart

# Each command that it and rt start is one of these, which counts, and kills who builds before or after its work where it is the one
# that `KILL_AT` names. (Everything that a shell can do itself is done so: on a machine with much to do each process takes its time.)
mkdir steps
cat >steps/step <<'END'
#!/bin/sh
name=${0##*/}
# (in one line)
(set -f; set -- $*; printf '%s\n' "$name $*" >>"$ROOM/log")
at=0
while read -r line; do at=$((at + 1)); done <"$ROOM/log"
kill_here() {
    : >"$ROOM/killed"
    read -r pid <"$ROOM/pid"
    kill -KILL "$pid"
}
[ "$KILL_AT" != "before $at" ] || kill_here
PATH=$LATER_PATH
[ "$name" != sleep ] || set -- 0.1
[ "$KILL_AT" = "after $at" ] || exec "$name" "$@"
"$name" "$@"
status=$?
kill_here
exit "$status"
END
chmod 755 steps/step
for tool in awk cat chmod cmp cp cut date df find flock grep gzip head ln ls mkdir mktemp mv nproc od rm sed sha256sum sleep sort stat sync tail tar tr uname xargs; do
    ln -s step "steps/$tool"
done
# (rt lies with its kit, and reads this)
cat >notes/hook <<'END'
ROOM=$(cd -P -- "$notes/.." && pwd)
printf '%s\n' "rt $*" >>"$ROOM/log"
at=0
while read -r line; do at=$((at + 1)); done <"$ROOM/log"
kill_here() {
    [ "${KILL_AT-}" != "$1 $at" ] || { : >"$ROOM/killed"; read -r pid <"$ROOM/pid"; kill -KILL "$pid"; }
}
kill_here before
trap 'kill_here after' EXIT
END
ROOM=$PWD
LATER_PATH=$PATH
export ROOM LATER_PATH

# Starts it over other sources, which it has to build, and has it killed.
turn=0
start() {
    turn=$((turn + 1))
    echo "// $turn" >"$main"
    rm -f killed
    : >log
    status=0
    # shellcheck disable=SC2016
    MARK=$ROOM/mark KILL_AT=$1 PATH=$PWD/steps:$PATH sh -c 'echo $$ >pid; exec "$0"' "$command" </dev/null >said 2>&1 || status=$?
}

# Whether no process of a start is left.
ended() {
    [ -z "$(grep -l -F -z "MARK=$ROOM/mark" /proc/[0-9]*/environ 2>/dev/null)" ]
}

# Prints for each command of the log in which part of a build it was.
parts() {
    awk '/^cp .*\/out\/new-/ { part = "between copy and rename" }
        part != "between copy and rename" && part != "after it" && /^rt / && !/^rt version/ { part = "the runs of rt" }
        part == "" && /^mkdir .*\/sources\/crates/ { part = "copying" }
        { print part == "" ? "before" : part }
        /^mv .*\/out\/new-[a-z]+\.[0-9]+ / { part = "after it" }' log
}

# What the program that comes next prints.
next_program() {
    if [ "$kind" = checked ]; then
        try "$launcher" -c "$show; $show_kind"
        said=$(printf '%s\n' "$said" | tail -n 2)
    else
        try repo/bin/prove
        [ "$status" -ne 0 ] || said=$("$(ls -d -t repo/out/proved-* | head -n 1)/vunit_run" -c "$show; $show_kind")
    fi
}

start never
same "one that isn't killed" "$status $(ls repo/out | grep -c "^$kind-")" "0 1"
# Moments of each part, up to a number, spread over its commands: before the work of the one and after that of the next.
parts | awk -v most="$most" '{ all[$0] += 2; part[NR] = $0 }
    END {
        for (at = 1; at <= NR; at++) {
            limit = part[at] == "before" ? 3 : most
            for (half = 0; half < 2; half++) {
                turn = seen[part[at]]++
                if (all[part[at]] <= limit || int(turn * limit / all[part[at]]) != int((turn - 1) * limit / all[part[at]]) || turn == 0) print half ? "after" : "before", at
            }
        }
    }' | awk -v lane="$lane" 'NR % 4 == lane % 4' >moments
: >seen
while read -r when at <&3; do
    start "$when $at"
    [ -e killed ] || continue
    parts | sed -n "${at}p" >>seen
    same "killed $when command $at: its status" "$status" 137
    await ended
    # (a process that ends has no environment any more a moment before it gives its locks back)
    await flock -n "$lock" true
    before=$(($(builds) + $(proofs)))
    next_program
    same "killed $when command $at: the next start" "$status $said" "0 // $turn
kind: $kind"
    [ $(($(builds) + $(proofs) - before)) -le 1 ] || { echo "killed $when command $at: the next start built twice"; exit 1; }
    same "killed $when command $at: what is left in out" "$(find repo/out -name 'new-*' -o -name 'old-*')" ""
done 3<moments
