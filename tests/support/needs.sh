# Read by the scripts that need what not every machine has. tests/run counts a script that ends with 77 as failed, unless its
# name is in SKIP.

# Ends the script, which could not be tried: the words say why.
skip() {
    echo "$*"
    exit 77
}

# Skips the script where one of these is missing: a command that is there and may do its work, or the module tomllib of python3.
needs() {
    for thing; do
        case $thing in
            tomllib) python3 -c 'import tomllib' 2>/dev/null || skip "python3 has no tomllib" ;;
            strace) strace --quiet=all -o /dev/null -e trace=none true 2>/dev/null || skip "strace is missing, or may not trace" ;;
            *) command -v "$thing" >/dev/null || skip "$thing is missing" ;;
        esac
    done
}
