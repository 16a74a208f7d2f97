# Read by bin/prove, and by bin/vunit_run where no checked program can be built: proves and builds the program, beside, so that
# neither a running program nor an earlier one is touched.

# Minutes of a proof from nothing by the number of checks at once.
minutes_of() {
    case $1 in
        1) echo 145 ;;
        2) echo 75 ;;
        3) echo 55 ;;
        *) echo 48 ;;
    esac
}

# Proves and builds the program of the present sources if it is missing, while nobody else does the same. It ends with 126 or a
# signal's status where that fails.
prove() {
    is_free=
    { is_free=yes; prove_alone; } 8>>"$out/prove.lock"
    [ -n "$is_free" ] || fail 126 "the lock $out/prove.lock cannot be opened"
}

prove_alone() {
    take_turn 8 "$out/prove.lock" "two proofs at once would do everything twice" "another proof of the program" || :
    name=$(name_of proved "$sources" "$version")
    is_whole "$name" || build_proved
    # the next start takes it
    rm -f -- "$current"
}

# Has the part work, where rt keeps its proofs, hold the crates of these lines of crates.txt and no others.
lay_out() {
    rm -rf -- "$folder"/work/crates/*/src "$folder"/work/crates/*/specs "$folder"/work/crates/*/proofs
    cp -- "$1" "$folder/work/crates.txt" && cp -- "$folder/sources/HANDLES" "$folder/work" || return 1
    while read -r crate rest; do
        crate=${crate%%:*}
        mkdir -p -- "$folder/work/crates/$crate" && cp -R -- "$folder/sources/crates/$crate/." "$folder/work/crates/$crate" || return 1
    done <"$1"
}

# Runs these commands of a shell for the folder out of each crate, in it, as many at once as there are checks.
for_each_out() {
    find "$folder/work/crates" -mindepth 2 -maxdepth 2 -name out -type d -print0 2>/dev/null |
        xargs -0 -r -n 1 -P "$jobs" sh -c "cd -- \"\$1\" || exit 0; $1" sh >>"$log" 2>&1
}

# Packs what rt keeps of its proofs for the next build, and removes what it makes of that anew in seconds. If something can't be
# packed, it stays unpacked.
pack_kept() {
    command -v gzip >/dev/null && command -v tar >/dev/null || return 0
    for_each_out '
        rm -rf -- rlib
        [ -d incremental ] || exit 0
        if tar cf - incremental | gzip -1 >kept.new && gzip -t kept.new; then
            mv -f -- kept.new kept.tgz && rm -rf -- incremental
        else
            rm -f -- kept.new
        fi'
}

# Lays out what an earlier build packed. What can't be read is proved anew.
unpack_kept() {
    for_each_out '
        [ -f kept.tgz ] || exit 0
        rm -rf -- incremental
        gzip -dc kept.tgz | tar xf - || rm -rf -- incremental
        rm -f -- kept.tgz'
}

# Proves and builds the program, puts it in its place, and sets name and sources to what it was built of.
build_proved() {
    choose_folder vunit_run
    log=$out/build.log
    running=
    teller=
    trap 'stop_build 129' HUP
    trap 'stop_build 130' INT
    trap 'stop_build 143' TERM
    rm -rf -- "$out"/new-proved.* "$out"/old-proved.*
    { : >"$log"; } 2>/dev/null
    copy_sources 2>>"$log" || build_failed "the sources cannot be copied to $folder"
    made=$folder/work/crates/vunit_run/out/vunit_run
    begin_telling
    unpack_kept
    # first what can be proved side by side, then the others one after the other
    if [ -s "$folder/beside" ]; then
        lay_out "$folder/beside" 2>>"$log" || build_failed "the sources cannot be copied in $folder"
        run_rt . all check --jobs "$jobs" || build_failed "not everything is proved"
    fi
    lay_out "$folder/needed" 2>>"$log" || build_failed "the sources cannot be copied in $folder"
    rm -f -- "$made"
    # rt also runs what it builds, with a word that the program refuses before it looks at anything
    run_rt crates/vunit_run run --jobs "$jobs" -- --no-word-of-the-program
    [ -x "$made" ] || build_failed "not everything is proved, or no program can be made of it"
    put_program proved "$made" 2>>"$log" || build_failed "$why"
    trap - HUP INT TERM
    end_telling
    say "the program is proved and built, after $(minutes) minutes"
    if $is_kept; then pack_kept; else rm -rf -- "$folder"; fi
}

# Runs rt in a folder of the copy, says how far it is, and gives rt's status. It has the lock while it runs, also where who began
# it is killed.
run_rt() {
    (cd -- "$folder/work/$1" && shift && exec "$toolchain" "$@") </dev/null >>"$log" 2>&1 &
    running=$!
    tell_progress 8>&- 9>&- &
    teller=$!
    wait "$running"
    status=$?
    running=
    stop_telling
    return "$status"
}

build_failed() {
    end_telling
    grep -E '(^|[ :])error' "$log" | head -n 10 | cut -c 1-200 >&2
    tail -n 10 -- "$log" | cut -c 1-200 >&2
    full=$(full_folder)
    say "the program was not built: $1. ${full:+"There is no space left in $full. "}Above are the first errors and the end of $log"
    rm -rf -- "$out/new-proved.$$"
    $is_kept || rm -rf -- "$folder"
    exit 126
}

stop_build() {
    trap '' HUP INT TERM
    [ -z "$running" ] || kill "$running" 2>/dev/null
    stop_telling
    end_telling
    rm -rf -- "$out/new-proved.$$"
    $is_kept || rm -rf -- "$folder"
    exit "$1"
}

# Sets how many checks run at once, and says how long all takes. A check takes up to 3,000,000 kilobytes of memory.
begin_telling() {
    jobs=$(nproc 2>/dev/null) || jobs=1
    fits=$(awk '$1 == "MemAvailable:" { print int($2 / 3000000) }' /proc/meminfo 2>/dev/null)
    [ "${fits:-$jobs}" -ge "$jobs" ] || jobs=$fits
    [ "$jobs" -ge 1 ] || jobs=1
    began=$(date +%s)
    list_crates
    if [ -d "$folder/work/crates/vunit_run/out" ]; then
        expected=
        say "the program is proved and built by $toolchain ($version); what an earlier proof has shown is kept"
    else
        expected=" of about $(minutes_of "$jobs")"
        say "the program is proved and built by $toolchain ($version), with up to $jobs checks at once, in about $(minutes_of "$jobs") minutes"
    fi
    say "each check takes up to 3 GB of memory, and all of them up to 11 GB of disk in $folder, of which 2.5 GB are kept"
}

# Writes three files. weights has the crates of the program, each with the bytes of its sources; needed has their lines of
# crates.txt. beside has the crates that are proved side by side: all but the uppermost, which use each other one by one.
list_crates() {
    : >"$folder/beside"
    (cd -- "$folder/sources" && find crates/*/src crates/*/specs crates/*/proofs -type f -printf '%s %p\n' 2>/dev/null) |
        FOLDER=$folder awk '
            BEGIN { folder = ENVIRON["FOLDER"] }
            FNR == NR { split($2, part, "/"); bytes[part[2]] += $1; next }
            # (what only tests use stands after the line)
            {
                tests = $0
                if (!sub(/^[^#]*#/, "", tests)) tests = ""
                sub(/#.*/, "")
                if (NF == 0) next
                split("", only)
                count = split(tests, names, " ")
                for (at = 1; at <= count; at++) only[names[at]] = 1
                text = $1
                for (at = 2; at <= NF; at++) if (!($at in only)) text = text " " $at
                $0 = text
                gsub(/[:,]/, " ")
                line[$1] = text
                uses[$1] = $0
            }
            function add_below(crate, top, used, count, at) {
                count = split(uses[crate], used, " ")
                for (at = 2; at <= count; at++)
                    if (used[at] in uses && !((top, used[at]) in below)) {
                        below[top, used[at]] = 1
                        depth[top]++
                        add_below(used[at], top)
                    }
            }
            END {
                add_below("vunit_run", "vunit_run")
                needed["vunit_run"] = 1
                for (crate in uses) if (("vunit_run", crate) in below) { needed[crate] = 1; add_below(crate, crate) }
                for (crate in needed) {
                    all++
                    print crate, bytes[crate] >(folder "/weights")
                    print line[crate] >(folder "/needed")
                }
                # from the top down: a crate that all which are left stand below
                for (left = all; left > 0; left--) {
                    top = ""
                    for (crate in needed) if (!(crate in apart) && depth[crate] == left - 1) top = crate
                    if (top == "") break
                    apart[top] = 1
                }
                for (crate in needed) if (!(crate in apart)) print line[crate] >(folder "/beside")
            }' - "$folder/sources/crates.txt"
}

minutes() {
    echo $((($(date +%s) - began + 30) / 60))
}

# Says how far rt is: on a terminal in one line that is written over, and else once in five minutes; until who began
# it has ended, however that was.
tell_progress() {
    turn=0
    while sleep 2 >/dev/null 2>&1 && kill -0 "$$" 2>/dev/null && { [ ! -e /proc/self/exe ] || [ -e "/proc/$$/exe" ]; }; do
        turn=$((turn + 1))
        [ -t 2 ] || [ $((turn % 150)) -eq 0 ] || continue
        tell "$(awk 'FNR == NR { bytes[$1] = $2; all += $2; crates++; next }
            # (where one is proved, and in rt all also where nothing was left to prove)
            $1 == "crate" || $1 == "==" { sub(/:$/, "", $2); if ($2 in bytes && !done[$2]++) { proved += bytes[$2]; count++ } }
            END { printf "proved %d of %d crates, %d %% of the text", count, crates, all ? 100 * proved / all : 0 }' \
            "$folder/weights" "$log"), $(minutes)$expected minutes"
    done
}

tell() {
    if [ -t 2 ]; then
        printf '\r\033[Kvunit_run: %s' "$1" >&2
    else
        say "$1"
    fi
}

stop_telling() {
    [ -n "$teller" ] || return 0
    # (another signal can come before it has left this shell's traps)
    kill -KILL "$teller" 2>/dev/null
    wait "$teller" 2>/dev/null
    teller=
}

# Clears the line that is written over.
end_telling() {
    [ ! -t 2 ] || printf '\r\033[K' >&2
}

