# Read by bin/vunit_run at each start, and by bin/prove, bin/package and .ci/run: what a program is built of, and where the built ones
# lie. Whoever reads this has set bin to the folder that it lies in.
line_feed='
'
root=$bin/..
# The built programs: each lies with its record in a folder, whose name has its kind and the beginnings of two sums, of its sources and of
# what `rt version` prints. The record has both sums whole, size, SHA-256, processor, glibc, and the sum of the script that built it. A
# program counts only if name and bytes fit its record.
#
# The file current has the name of the present program, the line that is printed at each start, and a stamp. A start compares the stamp, and
# makes the sums only if it differs. Without rt in PATH a program of the same sources still runs. A toolchain replaced without touching its
# command is not noticed.
out=$root/out
current=$out/current
# What the system starts each built program by: without it none runs.
loader=/lib64/ld-linux-x86-64.so.2
program='' toolchain='' kept_toolchain='' claim=''

say() {
    printf 'vunit_run: %s\n' "$1" >&2
}

fail() {
    say "$2"
    exit "$1"
}

# Reads another part of the launcher.
read_part() {
    [ -r "$bin/$1.sh" ] || fail 126 "$bin/$1.sh cannot be read"
    . "$bin/$1.sh"
}

# Runs find in a folder over all files that a program may be built of, with one path before them and one behind them (or none). The
# other words are what it does.
find_files() (
    cd -P -- "$1" || exit 1
    first=$2
    last=$3
    shift 3
    find -H ${first:+"$first"} crates.txt HANDLES crates/*/src crates/*/specs crates/*/proofs ${last:+"$last"} "$@"
)

# Sets commands to the paths of all commands named rt in PATH, in its order, with a line feed behind each.
find_commands() {
    commands=
    before=$IFS
    IFS=:
    set -f
    for place in ${PATH-}; do
        case $place in
            /*) ;;
            *) place=$PWD/${place:-.} ;;
        esac
        [ ! -f "$place/rt" ] || [ ! -x "$place/rt" ] || commands=$commands$place/rt$line_feed
    done
    set +f
    IFS=$before
}

stamp_form='%p %s %T@ %C@ %i\n'

# Prints a line for each command named rt before the toolchain's in PATH, one for the toolchain's, and one for each source, and
# of a named program: path, size, times and number. Of a checked program, PROVED and the script that built it have a line too.
# While these stay the same, the parts that the program is built of stay the same, and the line at its start. Where the
# toolchain isn't in PATH, its kept line counts.
print_stamp() {
    present=
    others=
    before=$IFS
    IFS=$line_feed
    set -f
    for command in $commands; do
        [ "$command" != "$toolchain" ] || { present=$toolchain; break; }
        others=$others$command$line_feed
    done
    # shellcheck disable=SC2086
    [ -z "$others" ] || find -H $others -printf "$stamp_form"
    set +f
    IFS=$before
    [ -n "$present" ] || printf '%s\n' "$kept_toolchain"
    case $1 in
        checked-*) (cd -P -- "$root" && find PROVED bin/checked.sh -printf "$stamp_form" 2>/dev/null) ;;
    esac
    find_files "$root" "$present" "${2-}" ! -type d -printf "$stamp_form"
}

# Whether a program is kept for the present stamp. Sets program to its name, toolchain to the command that it was built with,
# and claim to the line that each start prints.
is_current() {
    kept_toolchain=
    claim=
    [ -r "$current" ] && { read -r program && read -r kept_toolchain && read -r claim; } <"$current" || return 1
    toolchain=${kept_toolchain% * * * *}
    [ -x "$out/$program/vunit_run" ] && [ -e "$loader" ] || return 1
    {
        printf '%s\n%s\n%s\n' "$program" "$kept_toolchain" "$claim"
        print_stamp "$program" "out/$program/vunit_run" 2>/dev/null || echo "not all was found"
    } | cmp -s - "$current"
}
