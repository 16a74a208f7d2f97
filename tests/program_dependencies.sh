# Files are compiled after all that they depend on, and again exactly where they changed, or what was made of one of these.
# Faults of names and order are refused before a child is started.
. "$TOP/tests/support/program.sh"

# Prints a package, and before it what stands for its context.
package() {
    [ -z "${2-}" ] || printf '%s\n' "$2"
    printf 'package %s is\nend package %s;\n' "$1" "$1"
}

# Two libraries; u1 and u2 use p, and u3 uses u1.
project
libraries lib:p.vhd,u1.vhd,v.vhd tb_lib:u2.vhd,u3.vhd >vunit.toml
package p >p.vhd
package u1 'use work.p.all;' >u1.vhd
package v >v.vhd
package u2 'library lib; use lib.p.all;' >u2.vhd
package u3 'library lib; use lib.u1.all;' >u3.vhd
all='Compiling into lib: p.vhd passed
Compiling into lib: u1.vhd passed
Compiling into lib: v.vhd passed
Compiling into tb_lib: u2.vhd passed
Compiling into tb_lib: u3.vhd passed
Compile passed'
users='Compiling into lib: p.vhd passed
Compiling into lib: u1.vhd passed
Compiling into tb_lib: u2.vhd passed
Compiling into tb_lib: u3.vhd passed
Compile passed'
expect "a first build" 0 "$all" --compile
expect "nothing changed" 0 "Re-compile not needed" --compile
touch p.vhd u1.vhd
expect "a new time of the same text" 0 "Re-compile not needed" --compile -p 4
echo '-- child: note 1' >>p.vhd
expect "the package that others use is edited" 0 "$users" --compile
expect "nothing changed after that" 0 "Re-compile not needed" --compile
package p >p.vhd
expect "it is edited back" 0 "$users" --compile -p 3
echo '-- a comment' >>p.vhd
expect "it has a comment more, of which what is made of it says nothing" 0 "Compiling into lib: p.vhd passed
Compile passed" --compile
expect "nothing changed after that either" 0 "Re-compile not needed" --compile
echo '-- child: note 1' >>v.vhd
expect "a file alone is edited" 0 "Compiling into lib: v.vhd passed
Compile passed" --compile
libraries lib:v.vhd,u1.vhd,p.vhd tb_lib:u3.vhd,u2.vhd >vunit.toml
expect "the files in another order, but each after the same ones" 0 "Re-compile not needed" --compile
libraries lib:p.vhd,u1.vhd,v.vhd >vunit.toml
expect "a library less" 0 "Re-compile not needed" --compile
{ libraries lib:p.vhd,u1.vhd,v.vhd tb_lib:u2.vhd,u3.vhd; echo 'options = ["-x"]'; } >vunit.toml
expect "another option of a library" 0 "Compiling into tb_lib: u2.vhd passed
Compiling into tb_lib: u3.vhd passed
Compile passed" --compile
expect "emptied" 0 "$all" --compile --clean
expect "files are listed without looking at the records" 0 "lib, p.vhd
lib, u1.vhd
lib, v.vhd
tb_lib, u2.vhd
tb_lib, u3.vhd
Listed 5 files" -f --clean
expect "and the records are there" 0 "Re-compile not needed" --compile
{ libraries lib:p.vhd,u1.vhd,v.vhd; printf '[[depends]]\nlibrary = "lib"\npath = "p.vhd"\non_library = "lib"\non_path = "v.vhd"\n'; } >vunit.toml
expect "a dependency that the project file says" 0 "Compiling into lib: p.vhd passed
Compiling into lib: u1.vhd passed
Compile passed" --compile
expect "its order" 0 "lib, v.vhd
lib, p.vhd
lib, u1.vhd
Listed 3 files" --files

# A listed project: each file depends on all before it.
project vunit.csv 'lib,a.vhd\nlib,b.vhd\nlib,c.vhd\n'
for name in a b c; do package "$name" >"$name.vhd"; done
expect "a listed project" 0 "Compiling into lib: a.vhd passed
Compiling into lib: b.vhd passed
Compiling into lib: c.vhd passed
Compile passed" --compile
echo '-- child: note 1' >>b.vhd
expect "the second of three files is edited" 0 "Compiling into lib: b.vhd passed
Compiling into lib: c.vhd passed
Compile passed" --compile -p 2
expect "the order of a listed project" 0 "lib, a.vhd
lib, b.vhd
lib, c.vhd
Listed 3 files" -f

# A context gives its libraries to the units that refer to it.
project c.vhd 'context ctx is library other; use other.q.all; end context ctx;\n' \
    w.vhd 'context work.ctx; package w is constant k : integer := other.q.c; end;\n'
libraries lib:c.vhd,w.vhd other:q.vhd >vunit.toml
package q >q.vhd
expect "a context" 0 "other, q.vhd
lib, c.vhd
lib, w.vhd
Listed 3 files" -f

# An architecture sees the libraries of its entity, and depends on what it names; the entity doesn't.
project e.vhd 'library other; entity e is end;\n' \
    a.vhd 'architecture rtl of e is constant k : integer := other.q.c; begin end;\n'
libraries lib:e.vhd,a.vhd other:q.vhd >vunit.toml
package q >q.vhd
expect "an architecture after what it names" 0 "lib, e.vhd
other, q.vhd
lib, a.vhd
Listed 3 files" -f
expect "an architecture" 0 "Compiling into lib: e.vhd passed
Compiling into other: q.vhd passed
Compiling into lib: a.vhd passed
Compile passed" --compile
echo '-- child: note 1' >>q.vhd
expect "what an architecture names is edited" 0 "Compiling into other: q.vhd passed
Compiling into lib: a.vhd passed
Compile passed" --compile
echo '-- child: note 1' >>e.vhd
expect "its entity is edited" 0 "Compiling into lib: e.vhd passed
Compiling into lib: a.vhd passed
Compile passed" --compile

# A configuration depends on the architecture that a block configuration names, and on no other of that entity.
project top.vhd 'entity top is end;\narchitecture a of top is begin end;\n' s.vhd 'entity s is end;\n' \
    r.vhd 'architecture r of s is begin end;\n' q.vhd 'architecture q of s is begin end;\n' \
    c.vhd 'configuration c of top is\n  for a\n    for u : s use entity work.s; for r end for; end for;\n  end for;\nend;\n'
libraries lib:c.vhd,q.vhd,r.vhd,s.vhd,top.vhd >vunit.toml
expect "a configuration" 0 "Compiling into lib: s.vhd passed
Compiling into lib: q.vhd passed
Compiling into lib: r.vhd passed
Compiling into lib: top.vhd passed
Compiling into lib: c.vhd passed
Compile passed" --compile
echo '-- child: note 1' >>q.vhd
expect "another architecture is edited" 0 "Compiling into lib: q.vhd passed
Compile passed" --compile
echo '-- child: note 1' >>r.vhd
expect "the architecture of a block configuration is edited" 0 "Compiling into lib: r.vhd passed
Compiling into lib: c.vhd passed
Compile passed" --compile

# Files that depend on each other in a circle; two others lead there.
project
libraries lib:a.vhd,b.vhd,c.vhd,d.vhd,e.vhd >vunit.toml
for pair in a:c b:c c:d d:e e:c; do package "${pair%:*}" "use work.${pair#*:}.all;" >"${pair%:*}.vhd"; done
for words in --compile -f '--compile -k -p 64 --clean --exit-0'; do
    # shellcheck disable=SC2086
    expect "a circle, $words" 1 "vunit_run: cycle
  lib, c.vhd
  lib, d.vhd
  lib, e.vhd" $words
done

# Refuses a project for this reason, and leaves no store there.
refuses() {
    expect "$1" 1 "vunit_run: $1" --compile
    expect "$1" 1 "vunit_run: $1" -f
    if [ -e vunit_out ]; then
        echo "$1: there is a vunit_out"
        failures=$((failures + 1))
    fi
}

# Names that are missing, and names that needn't be there.
project top.vhd 'entity top is end;\narchitecture a of top is begin\n  u : entity work.missing;\nend;\n'
libraries lib:top.vhd >vunit.toml
refuses "lib, top.vhd: no unit lib.missing"
project e.vhd 'entity e is end;\n' top.vhd 'entity top is end;\narchitecture a of top is begin\n  u : entity work.e(rtl);\nend;\n'
libraries lib:e.vhd,top.vhd >vunit.toml
refuses "lib, top.vhd: no architecture rtl of lib.e"
project r.vhd 'package other is end;\n' q.vhd 'library rec; package q is constant c : integer := rec.field; end;\n'
libraries lib:q.vhd rec:r.vhd >vunit.toml
expect "a name of a library that is no unit" 0 "Compiling into lib: q.vhd passed
Compiling into rec: r.vhd passed
Compile passed" --compile
echo '-- child: note 1' >>r.vhd
expect "it is no dependency" 0 "Compiling into rec: r.vhd passed
Compile passed" --compile
project p.vhd 'library unisim; use unisim.vcomponents.all;\npackage p is end;\n'
libraries lib:p.vhd >vunit.toml
refuses "lib, p.vhd: no unit unisim.vcomponents"
{ echo 'external = ["unisim"]'; libraries lib:p.vhd; } >vunit.toml
expect "a library that is external" 0 "Compiling into lib: p.vhd passed
Compile passed" --compile
project p.vhd 'library ieee; use ieee.std_logic_1164.all;\npackage p is end;\n'
libraries lib:p.vhd >vunit.toml
expect "ieee" 0 "Compiling into lib: p.vhd passed
Compile passed" --compile
{ echo 'external = ["unisim"]'; libraries lib:p.vhd; } >vunit.toml
expect "ieee beside an external library" 0 "lib, p.vhd
Listed 1 files" -f
project a.vhd 'package p is end;\n' b.vhd 'package P is end;\n'
libraries lib:a.vhd,b.vhd >vunit.toml
refuses "lib.p stands in lib, a.vhd and lib, b.vhd"
project a.vhd 'entity e is end; architecture r of e is begin end;\n' b.vhd 'architecture r of e is begin end;\n'
libraries lib:a.vhd,b.vhd >vunit.toml
refuses "lib.e(r) stands in lib, a.vhd and lib, b.vhd"
project a.vhd 'package p is end; package body p is end;\n' b.vhd 'package body p is end;\n'
libraries lib:a.vhd,b.vhd >vunit.toml
refuses "body lib.p stands in lib, a.vhd and lib, b.vhd"

# A use of a whole library.
project a.vhd 'use work.all;\npackage a is\nend package a;\n'
libraries lib:a.vhd >vunit.toml
warning='vunit_run: warning: lib, a.vhd: use of lib.all gives no dependency'
expect "a use of a whole library" 0 "$warning
Compiling into lib: a.vhd passed
Compile passed" --compile
expect "it is warned of again" 0 "$warning
Re-compile not needed" --compile
expect "it isn't warned of in a list" 0 "lib, a.vhd
Listed 1 files" -f

project a.vhd 'library other, more;\nuse work.all, more.all, other.b, other.all;\npackage a is\nend package a;\n' b.vhd 'package b is end;\n'
libraries lib:a.vhd other:b.vhd >vunit.toml
expect "uses in a list" 0 "$warning
vunit_run: warning: lib, a.vhd: use of other.all gives no dependency
Compiling into other: b.vhd passed
Compiling into lib: a.vhd passed
Compile passed" --compile

# The example with two libraries and an external one.
cp -R "$TOP/examples/counter" "$room/counter" && cd "$room/counter" || exit 1
expect "the files of the example" 0 "lib, src/counter_pkg.vhd
lib, src/counter.vhd
lib, src/board.vhd
tb_lib, tb/tb_counter.vhd
Listed 4 files" -f
expect "the example" 0 "Compiling into lib: src/counter_pkg.vhd passed
Compiling into lib: src/counter.vhd passed
Compiling into lib: src/board.vhd passed
Compiling into tb_lib: tb/tb_counter.vhd passed
Compile passed" --compile -p 4
echo '-- one more line' >>src/counter.vhd
expect "the counter has a comment more" 0 "Compiling into lib: src/counter.vhd passed
Compile passed" --compile
echo '-- child: note 1' >>src/counter.vhd
expect "the counter is edited" 0 "Compiling into lib: src/counter.vhd passed
Compiling into lib: src/board.vhd passed
Compiling into tb_lib: tb/tb_counter.vhd passed
Compile passed" --compile
echo '-- one more line' >>src/board.vhd
expect "the board is edited" 0 "Compiling into lib: src/board.vhd passed
Compile passed" --compile

[ "$failures" -eq 0 ]
