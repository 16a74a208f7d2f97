# A project is generated, built, edited, built again and tested, over a tree and a disk in memory. The text counts the starts of
# the built-in compiler. Slots come before files, and files before all other modes.
. "$TOP/tests/support/program.sh"

# Prints the lines of a project of a number of packages, by the number of files that its second build compiled.
said() {
    printf 'files %s\nfirst build compiled %s\nsecond build compiled %s\ntests passed 2 of 2\n' "$(($1 + 1))" "$(($1 + 1))" "$2"
}

# (the edited file and all that depend on it, counted from what each package uses: the one of half its number)
touched() {
    awk -v count="$1" 'BEGIN {
        edited = count > 1 ? 2 : 1
        for (at = 1; at <= count; at++) {
            for (up = at; up > edited; up = int(up / 2));
            if (up == edited) files++
        }
        print files + (edited == 1)
    }'
}

project
# (worked out by hand: 2, 4 and 5, 8 to 11 and so on come to package 2, each range twice as long as the one before. Of 64 packages
# these are 1 + 2 + 4 + 8 + 16, and package 64; of 1000 they end with 512 to 767, so they are 1 + 2 + .. + 256)
for rows in '1 2' '2 1' '3 1' '4 2' '10 6' '64 32' '127 63' '1000 511'; do
    packages=${rows% *}
    [ "$(touched "$packages")" -eq "${rows#* }" ] || failures=$((failures + 1))
    expect "$packages packages" 0 "$(said "$packages" "${rows#* }")" --generate "$packages"
    expect "$packages packages, eight at once" 0 "$(said "$packages" "${rows#* }")" -p 8 --generate="$packages"
done
expect "10 packages, and words that aren't looked at" 0 "$(said 10 6)" --generate 10 -lfkvq --compile --clean --fail-fast -x out.xml --export-json out.json x.y.z
if [ -e out.xml ] || [ -e out.json ] || [ -e vunit_out/store_a ] || [ -e vunit_out/store_b ] || [ -e src ]; then
    echo "a report, a store or a source was written"
    failures=$((failures + 1))
fi

# a project in the present folder is neither read nor built, and its store does not change
project vunit.csv 'lib,a.vhd\n' a.vhd 'entity a is end;\n'
expect "a build of a project" 0 'Compiling into lib: a.vhd passed
Compile passed' --compile
expect "10 packages beside it" 0 "$(said 10 6)" --generate 10 -p 3
expect "the project again" 0 'Re-compile not needed' --compile
printf 'bad\n' >vunit.csv
expect "10 packages beside a project that is refused" 0 "$(said 10 6)" --generate 10

expect "4,096 packages" 5 "vunit_run: over limit: files 4096" --generate 4096
expect "as many as may be" 5 "vunit_run: over limit: files 4096" --generate 18446744073709551615 -l
expect "4,096 packages and too many children" 5 "vunit_run: over limit: slots 64" --generate 4096 -p 65
expect "no package" 2 "$usage" --generate 0
expect "4,095 packages" 0 "$(said 4095 2047)" --generate 4095 -p 64

[ "$failures" -eq 0 ]
