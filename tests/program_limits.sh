# Each limit is kept on both sides, and one that is passed is named with status 5.
. "$TOP/tests/support/program.sh"

# Prints this number of lines of a project file.
lines() {
    awk -v count="$1" 'BEGIN { for (at = 1; at <= count; at++) print "lib,f" at ".vhd" }'
}

# Makes an empty design file of this size in bytes.
blank() {
    awk -v count="$2" 'BEGIN { line = sprintf("%1023s\n", ""); for (; count >= 1024; count -= 1024) printf "%s", line; printf "%" count "s", "" }' >"$1"
}

# Prints one line of a project file for each of a number of libraries, all with one path.
libraries() {
    awk -v count="$1" 'BEGIN { for (at = 1; at <= count; at++) print "lib" at ",z.vhd" }'
}

project
lines 4097 >vunit.csv
expect "4,097 files, none of which is there" 5 "vunit_run: over limit: files 4096" --compile
lines 4096 >vunit.csv
expect "4,096 files, none of which is there" 1 "vunit_run: lib, f1.vhd is absent" --compile
lines 4097 | sed 's/lib,//' | xargs touch
expect "4,096 empty files, each over all before it" 0 "$(lines 4096 | sed 's/,/, /'; echo 'Listed 4096 files')" -f
printf '[[library]]\nname = "lib"\nfiles = ["f*.vhd"]\n' >vunit.toml
expect "4,097 files of a pattern" 5 "vunit_run: over limit: files 4096" -f
rm f4097.vhd
expect "4,096 files of a pattern" 0 "$(lines 4096 | sed 's/,/, /' | LC_ALL=C sort; echo 'Listed 4096 files')" -f
lines 128 >vunit.csv
rm vunit.toml
expect "128 empty files, each over all before it" 0 "$(lines 128 | sed 's/lib,\(.*\)/Compiling into lib: \1 passed/'; echo 'Compile passed')" --compile -p 8
expect "the same once more" 0 "Re-compile not needed" --compile -p 8

project vunit.csv 'lib,a.vhd\nlib,b.vhd\n' b.vhd ''
blank a.vhd 4194305
expect "a file of one byte too many" 5 "vunit_run: over limit: text bytes 4194304" --compile
blank a.vhd 4194304
expect "a file as long as may be" 0 "Compiling into lib: a.vhd passed
Compiling into lib: b.vhd passed
Compile passed" --compile
printf ' ' >b.vhd
expect "the same with a longer file after it" 0 "Compiling into lib: b.vhd passed
Compile passed" --compile

project b.vhd ''
blank z.vhd 4194304
{ libraries 16; echo lib,b.vhd; } >vunit.csv
expect "as many bytes in all as may be" 0 "$(libraries 16 | sed 's/,/, /'; echo 'lib, b.vhd'; echo 'Listed 17 files')" -f
printf ' ' >b.vhd
expect "one byte too many in all" 5 "vunit_run: over limit: total bytes 67108864" --compile
rm b.vhd
expect "a file that isn't there after so many bytes" 1 "vunit_run: lib, b.vhd is absent" --compile
libraries 17 >vunit.csv
expect "many bytes too many in all" 5 "vunit_run: over limit: total bytes 67108864" -f

project
blank vunit.csv 4194305
expect "a project file of one byte too many" 5 "vunit_run: over limit: text bytes 4194304" --compile
blank vunit.csv 4194304
told='vunit.csv:1:1: vunit.csv: bad line 1'
expect "a project file of blanks as long as may be" 1 "vunit_run: vunit.csv: bad line 1" --compile
cp vunit.csv vunit.toml
expect "a vunit.toml of blanks as long as may be" 1 "vunit_run: vunit.toml: no key library" --compile
printf ' ' >>vunit.toml
expect "a vunit.toml of one byte too many" 5 "vunit_run: over limit: text bytes 4194304" --compile

[ "$failures" -eq 0 ]
