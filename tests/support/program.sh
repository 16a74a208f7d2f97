# What the tests of the program share. VUNIT_RUN is the program; each project is a new folder.
set -u
usage='usage: vunit_run [-lfkmvq] [--compile] [--fail-fast] [--clean] [--exit-0] [-x FILE] [-p N] [--export-json FILE] [--generate N] [PATTERN ...]'
failures=0
count=0

# Makes a new project and goes there: each pair of words is a path and a text, in which printf's escapes count.
project() {
    count=$((count + 1))
    mkdir -p "$room/$count"
    cd "$room/$count" || exit 1
    while [ $# -gt 1 ]; do
        case $1 in */*) mkdir -p -- "${1%/*}" ;; esac
        # shellcheck disable=SC2059
        printf -- "$2" >"$1"
        shift 2
    done
}

# Prints a vunit.toml: each word is a library, a colon and the patterns of its files with commas between them.
libraries() {
    for library; do
        printf '[[library]]\nname = "%s"\nfiles = ["' "${library%%:*}"
        printf '%s"]\n' "${library#*:}" | sed 's/,/", "/g'
    done
}

# Runs the program with the words from the fourth on, and compares status, standard output and standard error, of which told.sed takes
# lines out. The rest is to be the line `told`, which is taken back, or empty.
told=
expect() {
    name=$1
    printf '%s\n' "$3" >"$room/wanted"
    [ -n "$3" ] || : >"$room/wanted"
    printf '%s\n' "$told" >"$room/told"
    [ -n "$told" ] || : >"$room/told"
    told=
    wanted=$2
    shift 3
    status=0
    "$VUNIT_RUN" "$@" >"$room/out" 2>"$room/all" </dev/null || status=$?
    sed -E -f "$TOP/tests/support/told.sed" "$room/all" >"$room/err"
    if [ "$status" -ne "$wanted" ] || ! cmp -s "$room/wanted" "$room/out" || ! cmp -s "$room/told" "$room/err"; then
        echo "$name: status $status, and not $wanted; wanted and printed (at most 20 lines of 300 bytes), and the same of standard error:"
        for text in wanted out told err; do head -n 20 "$room/$text" | cut -c 1-300; echo "--"; done
        failures=$((failures + 1))
    fi
}

room=$PWD
# (a launcher may build the program first, which it tells on standard error)
"$VUNIT_RUN" --no-word-of-the-program >/dev/null || [ $? -eq 2 ] || exit 1
