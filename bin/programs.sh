# Read by whoever builds, looks for or packs a program: sums, records, and how a program is put in its place.
#
# A program and its record are written beside their place, synced and renamed. They are never overwritten, since a running program starts
# itself by its path. Of each kind the last three stay, and any that runs.

sum_of() {
    printf '%s\n' "$1" | sha256sum | cut -c 1-64
}

# Prints a sum of the paths and bytes of the sources in a folder. Names that begin with a dot or end with `~`, as editors leave
# files, are not sources.
sum_of_sources() {
    sums=$(find_files "$1" "" "" \( -name '.*' -o -name '*~' \) -prune -o -type f -exec sha256sum -- {} + 2>/dev/null) && [ -n "$sums" ] || return 1
    sum_of "$(printf '%s\n' "$sums" | LC_ALL=C sort)"
}

# Prints a text of the system's on one line, with `?` for what isn't visible.
visible() {
    printf '%s' "$1" | tr '\000-\037\177' '?'
}

# Ends the start where a source, or a folder of sources, is a link or anything else that is neither file nor folder: nobody would
# see that what it leads to has changed.
refuse_links() {
    odd=$(
        cd -P -- "$root" || exit
        find crates.txt HANDLES crates -maxdepth 1 \( -name '.*' -o -name '*~' \) -prune -o -type l -print 2>/dev/null
        find crates/*/src crates/*/specs crates/*/proofs \( -name '.*' -o -name '*~' \) -prune -o ! -type f ! -type d -print 2>/dev/null
    )
    odd=${odd%%"$line_feed"*}
    [ -z "$odd" ] || fail 126 "$(visible "$odd") is neither a file nor a folder; put the file itself there, since links among the sources aren't followed"
}

# Sets root to its plain path.
enter_root() {
    root=$(cd -P -- "$root" && pwd -P) || fail 126 "its own folder cannot be entered"
    out=$root/out
    current=$out/current
}

# Sets sources to the sum of the present ones.
sum_up() {
    refuse_links
    sources=$(sum_of_sources "$root") || fail 126 "not all of crates.txt, HANDLES and the sources in crates can be read"
}

# Sets toolchain to the first command of commands that is of the Rattle toolchain, and version to what that prints of itself;
# without such a command, both to nothing. A PATH that only this shell has set counts as empty.
find_toolchain() {
    toolchain=
    version=
    foreign=
    case $line_feed$(export -p) in
        *"${line_feed}export PATH="* | *"${line_feed}declare -x PATH="*) ;;
        *) commands= ;;
    esac
    before=$IFS
    IFS=$line_feed
    set -f
    for command in $commands; do
        version=$("$command" version 2>/dev/null </dev/null) || version=
        case $version in
            rattle-kit*"$line_feed"*) ;;
            rattle-kit*) toolchain=$command; break ;;
        esac
        foreign=${foreign:-$command}
        version=
    done
    set +f
    IFS=$before
}

need_toolchain() {
    [ -n "$toolchain" ] || fail 127 "the command rt of the Rattle toolchain is missing, so the program cannot be built${foreign:+" ($(visible "$foreign") is another command)"}"
}

# Programs are built for x86-64 alone, and with the C library of GNU.
need_processor() {
    machine=$(uname -m 2>/dev/null) || machine="an unknown one"
    [ "$machine" = x86_64 ] || fail 126 "the program runs on x86-64 processors alone, and this one is $machine"
    [ -e "$loader" ] || fail 126 "the program needs the C library of GNU (glibc) for x86-64, whose $loader is missing"
}

# Prints the name of the program of a kind, by the sum of its sources and the version of its toolchain.
name_of() {
    printf '%s-%.32s-%.32s\n' "$1" "$2" "$(sum_of "$3")"
}

# Prints the first version of glibc that has all that a program takes of it.
glibc_of() {
    grep -a -o 'GLIBC_[0-9][0-9.]*' -- "$1" | sed 's/^GLIBC_//' | LC_ALL=C sort -u -t . -k 1,1n -k 2,2n -k 3,3n | tail -n 1
}

# Prints the processor that a program is for, as its header has it.
processor_of() {
    case $(od -A n -t x1 -j 18 -N 2 -- "$1" 2>/dev/null) in
        *3e*00*) echo x86-64 ;;
        *) echo another ;;
    esac
}

# Prints the sum of the script that builds programs of a kind.
script_sum() {
    sha256sum <"$bin/$1.sh" | cut -c 1-64
}

# Prints the record of the program of a kind that lies at a path.
record_of() {
    printf 'kind %s\nsources %s\ntoolchain %s\nsize %s\nsha256 %s\nprocessor %s\nglibc %s\nscript %s\n' "$1" "$sources" "$version" \
        "$(stat -c %s -- "$2")" "$(sha256sum <"$2" | cut -c 1-64)" "$(processor_of "$2")" "$(glibc_of "$2")" "$(script_sum "$1")"
}

# Sets record_kind, record_sources and so on to what the record in a folder says.
read_record() {
    record_kind= record_sources= record_toolchain= record_size= record_sha256= record_processor= record_glibc= record_script=
    [ -f "$1/record" ] && [ -r "$1/record" ] || return 1
    while read -r key value; do
        case $key in
            kind) record_kind=$value ;;
            sources) record_sources=$value ;;
            toolchain) record_toolchain=$value ;;
            size) record_size=$value ;;
            sha256) record_sha256=$value ;;
            processor) record_processor=$value ;;
            glibc) record_glibc=$value ;;
            script) record_script=$value ;;
        esac
    done <"$1/record"
}

# Whether the program of this name is unchanged: it has the kind, the sums, the size and the SHA-256 of its record. One that
# another script has checked is built again.
is_whole() {
    file=$out/$1/vunit_run
    read_record "$out/$1" && [ -f "$file" ] && [ -x "$file" ] || return 1
    case $record_kind in
        proved) ;;
        checked) [ "$record_script" = "$(script_sum checked)" ] || return 1 ;;
        *) return 1 ;;
    esac
    [ "$1" = "$(name_of "$record_kind" "$record_sources" "$record_toolchain")" ] && [ "$record_size" = "$(stat -c %s -- "$file")" ] &&
        [ "$record_sha256" = "$(sha256sum <"$file" | cut -c 1-64)" ]
}

# Puts a program of a kind, which lies at a path, in its place with its record, once it has run and is on the disk. What lies there is
# damaged. Sets why where that fails.
put_program() {
    name=$(name_of "$1" "$sources" "$version")
    new=$out/new-$1.$$
    why="the program cannot be put in $out"
    mkdir -- "$new" && cp -- "$2" "$new/vunit_run" && chmod 755 "$new/vunit_run" && record_of "$1" "$new/vunit_run" >"$new/record" || return 1
    answered=0
    "$new/vunit_run" --no-word-of-the-program </dev/null >/dev/null 2>&1 || answered=$?
    [ "$answered" -eq 2 ] || { why="the program doesn't run"; return 1; }
    sync -- "$new/vunit_run" "$new/record" "$new" || return 1
    [ ! -e "$out/$name" ] || mv -- "$out/$name" "$out/old-$1.$$" || return 1
    mv -- "$new" "$out/$name" && sync -- "$out" || return 1
    rm -rf -- "$out/old-$1.$$"
    remove_old "$1"
}

# Removes the programs of a kind but the last three. A running one stays, and also the one that starts take now.
remove_old() {
    kept=
    [ ! -r "$current" ] || read -r kept <"$current" || kept=
    # shellcheck disable=SC2012
    (cd -- "$out" && ls -d -t -- "$1"-* 2>/dev/null) | tail -n +4 | while read -r old; do
        [ "$old" != "$kept" ] && [ "$old" != "$name" ] && ! is_running "$out/$old/vunit_run" && rm -rf -- "${out:?}/$old"
    done
    # (an earlier launcher kept them without a folder)
    for old in "$out"/vunit_run-*; do
        [ ! -f "$old" ] || is_running "$old" || rm -f -- "$old"
    done
}

# Whether a program runs, or might: the file of one that runs can't be opened to be written.
is_running() {
    [ -e "$1" ] || return 1
    ! (: >>"$1") 2>/dev/null || [ -n "$(find -L /proc/[0-9]*/exe -maxdepth 0 -samefile "$1" 2>/dev/null)" ]
}

# Sets proved_sources and proved_toolchain to what PROVED names.
read_proved() {
    proved_sources= proved_toolchain=
    [ -f "$root/PROVED" ] && [ -r "$root/PROVED" ] || return 1
    while read -r key value; do
        case $key in
            sources) proved_sources=$value ;;
            toolchain) proved_toolchain=$value ;;
        esac
    done <"$root/PROVED"
}

# Sets folder to one of this name with git's own files, where a copy of the sources can lie. rt ci refuses a second crates.txt
# below the top, but does not look through git's folders. A file in it has rt take it for another repository. Without such
# files, or if they can't be written, a temporary folder is made.
choose_folder() {
    git=$root/.git
    if [ -f "$git" ]; then
        read -r git <"$git"
        git=${git#gitdir: }
        case $git in /*) ;; *) git=$root/$git ;; esac
        # (only a worktree's folder of git is to be written in)
        [ -f "$git/HEAD" ] || git=
    fi
    folder=$git/$1
    is_kept=true
    if ! { [ -n "$git" ] && [ -d "$git" ] && mkdir -p -- "$folder/work" && touch -- "$folder/MODULE.bazel" && [ -w "$folder/work" ]; } 2>/dev/null; then
        is_kept=false
        folder=$(mktemp -d 2>/dev/null) || fail 126 "no folder can be made to build in; is there space in ${TMPDIR:-/tmp}?"
    fi
}

# Copies what the program is built of to the folder's part sources, and sets sources to the sum of the copy.
copy_sources() {
    rm -rf -- "$folder/sources"
    mkdir -p -- "$folder/sources/crates" "$folder/work/crates" || return 1
    cp -- "$root/crates.txt" "$root/HANDLES" "$folder/sources" || return 1
    for part in "$root"/crates/*/src "$root"/crates/*/specs "$root"/crates/*/proofs; do
        [ -d "$part" ] || continue
        to=$folder/sources${part#"$root"}
        mkdir -p -- "${to%/*}" && cp -R -- "$part" "$to" || return 1
    done
    find "$folder/sources" \( -name '.*' -o -name '*~' \) -prune -exec rm -rf -- {} +
    sources=$(sum_of_sources "$folder/sources")
}

# Whether the file system of a folder has less than a megabyte left.
is_full() {
    left=$(df -P -k -- "$1" 2>/dev/null | awk 'NR == 2 { print $4 }')
    [ -n "$left" ] && [ "$left" -lt 1024 ]
}

# Prints the folder with a full file system, of the folders that a build writes to, or nothing.
full_folder() {
    for each in "$out" "$folder" "${TMPDIR:-/tmp}"; do
        ! is_full "$each" || { printf '%s\n' "$each"; return; }
    done
}

# Takes the lock of a path, which is open as this descriptor. Says so where the lock is another's, and then ends with 1 once it is
# had; or what is done twice without the command flock.
take_turn() { # descriptor, path, what is done twice, who is waited for
    if ! command -v flock >/dev/null; then
        say "the command flock is missing, so $3"
    elif ! flock -n "$1"; then
        say "waiting for $4"
        flock "$1" || fail 126 "the lock $2 cannot be had"
        return 1
    fi
}
