# -h, --help and --version are answered before the program is reached: nothing is built or waited for, and the input isn't read.
# They count as words of their own before `--`, except as values of options.
. "$TOP/tests/support/launcher.sh"
. "$TOP/tests/support/needs.sh"
needs flock
echo 1.2.3 >repo/VERSION

answers() {
    try "$launcher" "$@" </dev/null
    same "$*: status" "$status" 0
    has "$*" "$said" "usage: vunit_run [OPTION ..] [PATTERN ..]"
}
mkdir repo/out
(flock 9; exec sleep 60) 9>repo/out/lock &
holder=$!
answers -h
answers --help
answers '*reset' --help -p 4
answers -p 4 -h
answers -x out.xml -h
answers -kx out.xml -h
answers --xunit-xml=out.xml -h
answers -xout.xml -h
answers -p4 -h
answers --generate 5 --help
answers -x --version -h
same "the path of the manual" "$("$launcher" --help | tail -n 1)" "Manual: $PWD/repo/docs/user/MANUAL.md"
try "$launcher" --version -h
same "--version" "$status $said" "0 vunit_run 1.2.3
sources $(. "$TOP/tests/support/sum_of.sh")
not built yet; a start builds a checked build, NOT PROVED: there is no PROVED to read"
kill "$holder"
wait "$holder" 2>/dev/null || :
same "what was built" "$(grep -v version notes/calls || :) $(ls repo/out)" " lock"
has "the options" "$("$launcher" -h)" "  -p N, --num-threads N "
# each option of the program has a line, with its short form
for word in -l --list -f --files --compile -m --minimal -k --keep-compiling --clean -p --num-threads --fail-fast --exit-0 -v --verbose -q --quiet -x \
    --xunit-xml --export-json --generate -h --help --version; do
    "$launcher" --help | grep -q -e "^ .*$word\b" || { echo "--help has no $word"; exit 1; }
done
for option in $(grep -o '`-[-a-z0-9]*' "$TOP/docs/user/MANUAL.md" | sed 's/`//' | sort -u); do
    case $option in
        -I | -O* | -g | --std | --cpu* | --init | --version | -s | -a | -n | -P | -IS | --) continue ;;
    esac
    grep -q -e "^| .*\`$option\b" "$TOP/docs/user/MANUAL.md" || continue
    "$launcher" --help | grep -q -e "$option\b" || { echo "--help has no $option, which the manual has"; exit 1; }
done

# all others reach the program, which is a shell here: it refuses these words with 2, or does something else
repo/bin/prove --sum 2>/dev/null
VUNIT_RUN_QUIET=1
export VUNIT_RUN_QUIET
reaches() {
    try "$launcher" "$@" </dev/null
    case $said in
        *"PATTERN .."* | "vunit_run 1.2.3"*) echo "$*: it is answered:"; echo "$said"; exit 1 ;;
    esac
}
"$launcher" -c : 2>/dev/null
reaches -x -h
reaches -kx --help
reaches --xunit-xml --version
reaches --export-json -h
reaches -p --help
reaches --num-threads -h
reaches --generate -h
reaches -- -h
reaches -k -- --version
reaches child-analyse -h
reaches child-bench --help
reaches -hk
reaches --helping
reaches --version=1
reaches '-h ' ' --help' 'a -h b'
reaches -x
reaches -p

# the state of the proof
version_has() {
    try "$launcher" --version
    has "--version" "$status
$said" "$1"
}
version_has "vunit_run 1.2.3"
version_has "checked build: PROVED names these sources; this machine has not proved them (bin/prove does)"
version_has "toolchain rattle-kit-1 of the tests"
version_has "for x86-64 Linux with glibc 2."
prove
version_has "proved on this machine"
echo '// second' >"$main"
version_has "not built yet; a start builds a checked build, NOT PROVED: PROVED names other sources"
