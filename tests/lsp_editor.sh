#!/bin/sh
# wrappers/vunit_lsp in a real editor, neovim without a display: a diagnostic in a buffer that isn't saved, lenses, and a bench that is run by
# its lens. Skipped where neovim is missing.
. "$TOP/tests/support/needs.sh"
needs python3 tomllib nvim
set -e
cp -R "$TOP/examples/counter" project
mkdir tmp home
cd project
HOME=$PWD/../home XDG_CACHE_HOME=$PWD/../home XDG_STATE_HOME=$PWD/../home TMPDIR=$PWD/../tmp timeout 200 \
    nvim --headless -u NONE -i NONE -n -c "luafile $TOP/tests/support/editor.lua" >said 2>&1 </dev/null || { cat said seen; exit 1; }
cat >../wanted <<'END'
54:1-4 tb_lib, tb/tb_counter.vhd: no design unit at 1477
lens 31 run tb_lib.tb_counter
lens 31 run
lens 34 run
lens 41 run
31:15-46 pass tb_lib.tb_counter.stays at zero while it is reset
34:18-52 pass tb_lib.tb_counter.begins again after the last number
41:18-43 fail tb_lib.tb_counter.counts to the last number
failed tb_lib.tb_counter.counts to the last number
modified true
END
diff ../wanted seen
diff -r "$TOP/examples/counter/tb" tb
# (the editor has its own folder in TMPDIR)
count=0
while [ -n "$(find ../tmp -name 'vunit_lsp_*')" ]; do
    count=$((count + 1))
    [ "$count" -lt 200 ] || { echo "left in TMPDIR: $(find ../tmp)"; exit 1; }
    sleep 0.1
done
