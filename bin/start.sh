# Read by bin/vunit_run where the kept program isn't known to be that of the present sources: finds this program, or builds it.
read_part programs

# Sets name and kind to those of the program of the present sources that counts, and reads its record: the proved one, else the
# checked one. Where the toolchain is missing, it may be of any toolchain.
find_program() {
    for kind in proved checked; do
        if [ -n "$toolchain" ]; then
            name=$(name_of "$kind" "$sources" "$version")
            ! is_whole "$name" || return 0
            continue
        fi
        for found in "$out/$last" "$out/$kind-$(printf %.32s "$sources")"-*; do
            name=${found##*/}
            case $name in
                "$kind-$(printf %.32s "$sources")-"*) ! is_whole "$name" || return 0 ;;
            esac
        done
    done
    return 1
}

# Sets claim to what each start says of the program whose record was read.
claim_of_record() {
    claim=
    [ "$record_kind" = checked ] || return 0
    if ! read_proved; then
        claim="checked build, NOT PROVED: there is no PROVED to read"
    elif [ "$proved_sources" != "$record_sources" ]; then
        claim="checked build, NOT PROVED: PROVED names other sources"
    elif [ -n "$record_toolchain" ] && [ "$proved_toolchain" != "$record_toolchain" ]; then
        claim="checked build, NOT PROVED: PROVED names the toolchain $(visible "$proved_toolchain"), this is $record_toolchain"
    else
        claim="checked build: PROVED names these sources; this machine has not proved them (bin/prove does)"
    fi
}

# Keeps the name with the claim and the stamp that was taken before the sums. A file that was changed just now may change once more
# within the same tick of its clock: no stamp is kept then, and the next start sums up again.
keep_stamp() {
    recent=$(find_files "$root" "$toolchain" "" ! -type d -newerct '2 seconds ago' 2>&1) || return 0
    [ -z "$recent" ] && [ -z "$(find "$root/PROVED" "$bin/checked.sh" -newerct '2 seconds ago' 2>/dev/null)" ] || return 0
    if {
        printf '%s\n%s\n%s\n' "$name" "$kept_toolchain" "$claim" &&
            if [ "$kind" = checked ]; then printf '%s\n' "$checked_stamp"; else printf '%s\n' "$proved_stamp"; fi &&
            (cd -P -- "$root" && find -H "out/$name/vunit_run" -printf "$stamp_form")
    } >"$current.$$" 2>/dev/null; then
        mv -f -- "$current.$$" "$current" 2>/dev/null || rm -f -- "$current.$$"
    else
        rm -f -- "$current.$$"
    fi
    # (bin/prove removes the file once its program is in place, which may have been before this)
    [ "$kind" = proved ] || [ ! -e "$out/$(name_of proved "$sources" "$version")" ] || rm -f -- "$current"
}

# Sets program to the name of the program of the present sources, which is built where it must. Without a program it ends the
# start with 126, 127 or a signal's status.
update() {
    need_processor
    enter_root
    last=$program
    find_toolchain
    [ -z "$toolchain" ] || kept_toolchain=$(find -H "$toolchain" -printf "$stamp_form")
    for turn in 1 2 3 4; do
        proved_stamp=$(print_stamp proved- "" 2>/dev/null)
        checked_stamp=$(print_stamp checked- "" 2>/dev/null)
        sum_up
        if find_program; then
            claim_of_record
            [ ! -w "$out" ] || keep_stamp
            program=$name
            return
        fi
        need_toolchain
        mkdir -p -- "$out" 2>/dev/null && [ -w "$out" ] || fail 126 "there is no program of the present sources, and $out cannot be written to build one"
        # the program is of the sources at the time of the copy
        [ "$turn" -eq 1 ] || say "the sources changed meanwhile"
        [ "$turn" -le 3 ] || fail 126 "the sources change faster than they are built"
        is_open=
        { is_open=yes; build_alone; } 9>>"$out/lock"
        [ -n "$is_open" ] || fail 126 "the lock $out/lock cannot be opened"
    done
}

# Builds, while no other start does the same.
build_alone() {
    # (where another start was waited for, it may have built this one)
    take_turn 9 "$out/lock" "two first starts at once would build twice" "another start, which is building the program" || ! find_program || return 0
    read_part checked
    build_checked && return
    [ -z "$full" ] || fail 126 "the checked program was not built: there is no space left in $full"
    say "no checked program can be built ($why; see $log), so the program is proved and built, as bin/prove does"
    read_part proved
    prove
}
