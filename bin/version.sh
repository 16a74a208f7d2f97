# Read by bin/vunit_run where --version may be asked for.

# Prints the version, and whether the program that a start would run is proved.
print_version() {
    read_part programs
    read_part start
    enter_root
    find_commands
    find_toolchain
    last=
    echo "vunit_run $(cat -- "$root/VERSION" 2>/dev/null)"
    sources=$(sum_of_sources "$root") || { echo "not all sources can be read"; return; }
    echo "sources $sources"
    if ! find_program; then
        # (as if it had been checked by the present toolchain)
        record_kind=checked record_sources=$sources record_toolchain=$version
        claim_of_record
        echo "not built yet; a start builds a $claim"
        return
    fi
    claim_of_record
    echo "toolchain $record_toolchain"
    echo "${claim:-proved on this machine}"
    echo "for $record_processor Linux with glibc $record_glibc or later"
}
