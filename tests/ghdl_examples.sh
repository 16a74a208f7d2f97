#!/bin/sh
# Projects that the program compiles and runs with GHDL: the examples, one that an earlier wrapper has compiled, and the sessions
# of docs/user/GHDL.md and MOVING.md. Skipped where ghdl isn't there, or isn't the one that is supported.
. "$TOP/tests/support/ghdl_parts.sh"
parts ghdl_examples ghdl_earlier
# (what GHDL says begins with its path)
path=$(ghdl -r no_such_unit 2>&1 | sed -n 's/: cannot find .*//p')
path="s#^/usr/bin/ghdl-mcode:#$path:#"
mkdir writing benches recording generics configurations reporting moving
(cd writing && sh "$TOP/tests/support/session.sh" docs/user/GHDL.md "Write a bench")
(cd benches && sh "$TOP/tests/support/session.sh" docs/user/GHDL.md "Run benches with GHDL" "$path")
(cd recording && sh "$TOP/tests/support/session.sh" docs/user/GHDL.md "Record one run" "$path")
(cd generics && sh "$TOP/tests/support/session.sh" docs/user/GHDL.md "Generics, data files and hooks" "$path")
(cd configurations && sh "$TOP/tests/support/session.sh" docs/user/GHDL.md "Configurations" "$path")
(cd reporting && sh "$TOP/tests/support/session.sh" docs/user/CI.md "A report")
(cd moving && sh "$TOP/tests/support/session.sh" docs/user/MOVING.md "A session")
