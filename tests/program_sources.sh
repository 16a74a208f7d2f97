# Faults of the sources are named, with status 1, before a child is started, and for a place in a file standard error has a line
# that editors know. Sources without fault are compiled.
. "$TOP/tests/support/program.sh"
a='package a is\nend package a;\n'
both='Compiling into lib: a.vhd passed
Compiling into lib: b.vhd passed
Compile passed'

project vunit.csv 'lib,a.vhd\nlib,b.vhd\n' a.vhd "$a" b.vhd 'package b is\nend package b;\n'
expect "two packages" 0 "$both" --compile
expect "the same once more" 0 "Re-compile not needed" --compile
project vunit.csv ' Lib\t, a.vhd \r\n\r\n\nLIB,b.vhd' a.vhd "$a" b.vhd ''
expect "blanks, empty lines, another case, no last line end" 0 "$both" --compile
project vunit.csv ''
expect "no files" 0 "Re-compile not needed" --compile

project
expect "no project" 1 "vunit_run: no vunit.toml and no vunit.csv" --compile
project vunit.csv 'lib,a.vhd\nlib\n' a.vhd "$a"
told='vunit.csv:2:1: vunit.csv: bad line 2'
expect "a line without a comma" 1 "vunit_run: vunit.csv: bad line 2" --compile
project vunit.csv 'lib,a.vhd\n\nlib,"a.vhd"\n'
told='vunit.csv:3:1: vunit.csv: bad line 3'
expect "a quote" 1 "vunit_run: vunit.csv: bad line 3" --compile
project vunit.csv 'work,a.vhd\n'
expect "the library work" 1 "vunit_run: a library may not be named work" --compile
project vunit.csv 'WORK,a.vhd\nlib\n'
expect "the library work, in a line before a bad one" 1 "vunit_run: a library may not be named work" --compile
project vunit.csv 'lib,../a.vhd\n'
told='vunit.csv:1:1: vunit.csv: bad line 1'
expect "a path upwards" 1 "vunit_run: vunit.csv: bad line 1" --compile
project vunit.csv 'lib,a.vhd\nLIB,a.vhd\n' a.vhd "$a"
expect "a file twice" 1 "vunit_run: lib, a.vhd stands twice" --compile
project vunit.toml '' vunit.csv 'bad\n'
expect "a vunit.toml, which comes first" 1 "vunit_run: vunit.toml: no key library" --compile

project vunit.csv 'lib,a.vhd\nlib,b.vhd\n' a.vhd "$a"
expect "a file that isn't there" 1 "vunit_run: lib, b.vhd is absent" --compile
# each text, its message, and the line and the column of the place
while IFS='|' read -r text said place; do
    project vunit.csv 'lib,a.vhd\nlib,b.vhd\n' a.vhd "$a" b.vhd "$text"
    told="b.vhd:$place: lib, b.vhd: $said"
    expect "$text" 1 "vunit_run: lib, b.vhd: $said" --compile
done <<'ROWS'
foo|no design unit at 0|1:1
package b is end;\nfoo|no design unit at 18|2:1
entity e is|design unit not ended at 0|1:1
\n\tfoo|no design unit at 2|2:2
/* \303\244 */ foo|no design unit at 9|1:10
package b is constant c : string := "abc|unclosed string at 36|1:37
package b is constant c : string := "abc\n";\nend;|unclosed string at 36|1:37
package b is end; /* no end|unclosed comment at 18|1:19
package \\b\nis end;|unclosed extended identifier at 8|1:9
ROWS
project vunit.csv 'lib,a.vhd\nlib,b.vhd\n' a.vhd 'foo' b.vhd '"'
told='a.vhd:1:1: lib, a.vhd: no design unit at 0'
expect "two texts with a fault" 1 "vunit_run: lib, a.vhd: no design unit at 0" --compile

# A name can't end the line, and a source that can't be read twice has no such line.
project vunit.toml '[[library]]\nname = "lib"\nfiles = ["*.vhd"]\n' "$(printf 'a\033\tb.vhd')" foo
told='a??b.vhd:1:1: lib, a??b.vhd: no design unit at 0'
expect "a path with control characters" 1 "$(printf 'vunit_run: lib, a\033\tb.vhd: no design unit at 0')" --compile
project vunit.csv 'lib,pipe\n'
mkfifo pipe
printf foo >pipe &
expect "a pipe, which is read once" 1 "vunit_run: lib, pipe: no design unit at 0" --compile

[ "$failures" -eq 0 ]
