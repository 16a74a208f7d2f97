# Read by bin/vunit_run and by the launcher of a package, where VUNIT_RUN_WAIT is set or a watch has been in the present folder: waits
# for other runs there.

# Waits for a run of the watch and, with VUNIT_RUN_WAIT, for any other one, up to that number of seconds. After that time the
# program is started anyway, and says which process has the store. The words are those of the start.
wait_for_others() {
    seconds=${VUNIT_RUN_WAIT-}
    end=
    case $seconds in
        *[!0-9]* | ????????*) echo "vunit_run: VUNIT_RUN_WAIT isn't a number of seconds, of at most seven digits" >&2; exit 126 ;;
    esac
    # (a shell takes 010 for eight)
    while [ "$seconds" != "${seconds#0?}" ]; do seconds=${seconds#0}; done
    wait_for_watch "$@"
    [ -z "$seconds" ] || wait_for_run
}

# Sets now to the hundredths of a second that this machine is up.
find_now() {
    read -r now idle </proc/uptime
    # (a shell takes 08 for a bad number)
    now=$((${now%.*} * 100 + 1${now#*.} - 100))
}

# Sets rest to the seconds that are left, with two decimals.
find_rest() {
    find_now
    [ -n "$end" ] || end=$((now + seconds * 100))
    rest=$((end - now))
    [ "$rest" -gt 0 ] || rest=0
    rest=$((rest / 100)).$((rest / 10 % 10))$((rest % 10))
}

# Waits until wrappers/vunit_watch has no run in the present folder. It locks vunit_out/watch for each of its runs. Other starts share
# this lock until their program has ended, and the watch starts no run until then.
wait_for_watch() {
    # (a start by the watch has the lock already, and one below its run would wait for itself)
    [ -z "${VUNIT_RUN_WATCHED-}" ] && opens_store "$@" && [ -f vunit_out/watch ] && [ -r vunit_out/watch ] || return 0
    command -v flock >/dev/null || { echo "vunit_run: the command flock is missing, so no run of vunit_watch is waited for" >&2; return 0; }
    { command exec 7<vunit_out/watch; } 2>/dev/null || return 0
    # (at most one second before it is said)
    if [ -n "$seconds" ]; then find_rest; else rest=1; fi
    case $rest in 0.*) ;; *) rest=1 ;; esac
    flock -s -w "$rest" 7 2>/dev/null
    # (another status is of a file system without locks)
    [ $? -eq 1 ] || return 0
    echo "vunit_run: waiting for a run of vunit_watch in this folder${seconds:+, at most $seconds seconds}" >&2
    if [ -z "$seconds" ]; then flock -s 7; else find_rest; flock -s -w "$rest" 7; fi || return 0
}

# Whether a start with these words opens the store.
opens_store() {
    case ${1-} in child-analyse | child-bench) return 1 ;; esac
    for word; do
        case $word in
            --) return 0 ;;
            --files | --list | --export-json | --export-json=* | --generate | --generate=*) return 1 ;;
            -*[!fklmqv]*) ;;
            -*[fl]*) return 1 ;;
        esac
    done
}

# Waits until no other run has the present folder's store. Starts that wait come one after the other: each keeps vunit_out/wait locked
# until its program has ended.
wait_for_run() {
    [ -f vunit_out/store_a ] && [ -w vunit_out ] || return 0
    if [ -e vunit_out/wait ]; then [ -f vunit_out/wait ] && [ -w vunit_out/wait ] || return 0; fi
    command -v flock >/dev/null || { echo "vunit_run: the command flock is missing, so VUNIT_RUN_WAIT doesn't count" >&2; return 0; }
    exec 8>>vunit_out/wait
    if flock -n 8 && flock -n vunit_out/store_a true; then return 0; fi
    echo "vunit_run: waiting for another run in this folder, at most $seconds seconds" >&2
    find_rest
    flock -w "$rest" 8 || return 0
    find_rest
    flock -w "$rest" vunit_out/store_a true || return 0
}
