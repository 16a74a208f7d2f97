# A vunit.toml says which libraries there are, of which files, and how these are compiled. The first thing that is wrong
# with it is named. Nothing is compiled here.
. "$TOP/tests/support/program.sh"

# Each file of a vunit.toml, and the message about it.
project a.vhd '' b.vhd ''
while IFS='|' read -r text said; do
    # shellcheck disable=SC2059
    printf "$text" >vunit.toml
    expect "$text" 1 "vunit_run: $said" -f
    expect "$text" 1 "vunit_run: $said" --compile -k
done <<'ROWS'
[[library|vunit.toml isn't TOML
compiler = ["a"]\ncompiler = ["b"]\n|vunit.toml isn't TOML
name = "\377"\n|vunit.toml isn't TOML
|vunit.toml: no key library
compiler = "cc"\n|vunit.toml: wrong value of compiler
compiler = []\n|vunit.toml: wrong value of compiler
compiler = ["cc", ""]\n|vunit.toml: wrong value of compiler
compiler = ["cc", 3]\nsimulator = 3\n|vunit.toml: wrong value of compiler
simulator = 3\nexternal = 3\n|vunit.toml: wrong value of simulator
external = ["a-b"]\n|vunit.toml: wrong value of external
external = "unisim"\n|vunit.toml: wrong value of external
users_depend_on_bodies = "no"\n|vunit.toml: wrong value of users_depend_on_bodies
library = "lib"\n|vunit.toml: wrong value of library
[library]\nname = "lib"\n|vunit.toml: wrong value of library
[[library]]\nfiles = ["*.vhd"]\n|vunit.toml: no key library.name
[[library]]\nname = "1lib"\n|vunit.toml: wrong value of library.name
[[library]]\nname = ["lib"]\n|vunit.toml: wrong value of library.name
[[library]]\nname = "Work"\n|a library may not be named work
[[library]]\nname = "lib"\n|vunit.toml: no key library.files
[[library]]\nname = "lib"\nfiles = "*.vhd"\n|vunit.toml: wrong value of library.files
[[library]]\nname = "lib"\nfiles = [1]\n|vunit.toml: wrong value of library.files
[[library]]\nname = "lib"\nfiles = ["*.vhd"]\noptions = "-x"\n|vunit.toml: wrong value of library.options
[[library]]\nname = "lib"\nfiles = ["*.vhd"]\n[[library]]\nname = "LIB"\n|library lib stands twice
[[library]]\nname = "lib"\nfiles = ["*.vhd", "z*.vhd"]\n|nothing matches z*.vhd
[[library]]\nname = "lib"\nfiles = ["z[.vhd"]\noptions = 3\n|nothing matches z[.vhd
[[library]]\nname = "lib"\nfiles = ["*.vhd"]\n[[depends]]\nlibrary = "lib"\n|vunit.toml: no key depends.path
[[library]]\nname = "lib"\nfiles = ["*.vhd"]\n[[depends]]\nlibrary = "lib"\npath = "../a.vhd"\n|vunit.toml: wrong value of depends.path
[[library]]\nname = "lib"\nfiles = ["*.vhd"]\n[[depends]]\nlibrary = "lib"\npath = "a.vhd"\non_library = "lib"\non_path = "c.vhd"\n|lib, c.vhd isn't in the project
[[library]]\nname = "lib"\nfiles = ["*.vhd"]\n[[depends]]\nlibrary = "other"\npath = "a.vhd"\non_library = "lib"\non_path = "c.vhd"\n|other, a.vhd isn't in the project
ROWS
if [ -e vunit_out ]; then
    echo "there is a vunit_out"
    failures=$((failures + 1))
fi

# Patterns and the files that they match, each once and at its first place.
libraries 'lib:*.vhd,a.vhd' >vunit.toml
expect "a file that two patterns match" 0 "lib, a.vhd
lib, b.vhd
Listed 2 files" -f
libraries 'lib:b.vhd,*.vhd' >vunit.toml
expect "the first place counts" 0 "lib, b.vhd
lib, a.vhd
Listed 2 files" -f
libraries 'lib:z*.vhd' >vunit.toml
expect "a pattern that matches nothing" 1 "vunit_run: nothing matches z*.vhd" --compile
libraries 'lib:a.vhd' 'LIB2:a.vhd' >vunit.toml
expect "a file in two libraries" 0 "lib, a.vhd
lib2, a.vhd
Listed 2 files" -f

project a.vhd '' src/a.vhd '' src/b.vhd '' src/ip/a.vhd '' src/ip/core/x1.vhd '' src/ip/core/x2.vhd '' src/ip/core/x-.vhd '' \
    src/.git/a.vhd '' .a.vhd '' vunit_out/a.vhd '' src/vunit_out/a.vhd '' 'src/b c.vhd' '' 'src/[b].vhd' ''
while IFS='|' read -r pattern files; do
    libraries "lib:$pattern" >vunit.toml
    expect "the pattern $pattern" 0 "$(printf '%s\n' "$files" | tr ';' '\n' | sed 's/^/lib, /')
Listed $(printf '%s\n' "$files" | tr ';' '\n' | wc -l) files" -f
done <<'ROWS'
*.vhd|a.vhd
*/*.vhd|src/[b].vhd;src/a.vhd;src/b c.vhd;src/b.vhd
**/a.vhd|a.vhd;src/a.vhd;src/ip/a.vhd;src/vunit_out/a.vhd
src/**/x*.vhd|src/ip/core/x-.vhd;src/ip/core/x1.vhd;src/ip/core/x2.vhd
src/**/**/a.vhd|src/a.vhd;src/ip/a.vhd;src/vunit_out/a.vhd
**/core/*|src/ip/core/x-.vhd;src/ip/core/x1.vhd;src/ip/core/x2.vhd
src/ip/core/x[0-9].vhd|src/ip/core/x1.vhd;src/ip/core/x2.vhd
src/ip/core/x[!0-9].vhd|src/ip/core/x-.vhd
src/ip/core/x[-1].vhd|src/ip/core/x-.vhd;src/ip/core/x1.vhd
src/[[]b].vhd|src/[b].vhd
src/?.vhd|src/a.vhd;src/b.vhd
src/***/a.vhd|src/ip/a.vhd;src/vunit_out/a.vhd
src/*b*|src/[b].vhd;src/b c.vhd;src/b.vhd
ROWS
for pattern in '.a.vhd' 'vunit_out/*' '**/.git/*' 'src/*/core' '/a.vhd' './a.vhd' 'src//a.vhd' 'src/../a.vhd' 'src/***/x1.vhd'; do
    libraries "lib:$pattern" >vunit.toml
    expect "the pattern $pattern" 1 "vunit_run: nothing matches $pattern" -f
done

# What is external, and a library that is external and has files.
project a.vhd 'library unisim; use unisim.vcomponents.all;\npackage a is end;\n' v.vhd 'package vcomponents is end;\n'
{ echo 'external = ["UniSim"]'; libraries lib:a.vhd; } >vunit.toml
expect "an external library, in another case" 0 "lib, a.vhd
Listed 1 files" -f
{ echo 'external = ["unisim"]'; libraries lib:a.vhd unisim:v.vhd; } >vunit.toml
expect "an external library that has files" 0 "unisim, v.vhd
lib, a.vhd
Listed 2 files" -f
printf 'package other is end;\n' >v.vhd
expect "it has no such unit then" 1 "vunit_run: lib, a.vhd: no unit unisim.vcomponents" -f

# Bodies count where the project says so, and keys that aren't known are passed over.
project p.vhd 'package p is end;\n' b.vhd 'package body p is end;\n' u.vhd 'use work.p.all;\npackage u is end;\n'
libraries lib:u.vhd,p.vhd,b.vhd >vunit.toml
expect "without bodies" 0 "lib, p.vhd
lib, u.vhd
lib, b.vhd
Listed 3 files" -f
{ printf 'users_depend_on_bodies = true\nhue = { red = [1, 2.5] }\n'; libraries lib:u.vhd,p.vhd,b.vhd; echo 'colour = 1979-05-27'; } >vunit.toml
expect "with bodies" 0 "lib, p.vhd
lib, b.vhd
lib, u.vhd
Listed 3 files" -f

[ "$failures" -eq 0 ]
