# Runs the session of one section of a page line by line in a copy of what it needs, and compares it with what the page prints. The
# lines of its fenced blocks that begin with `$ ` are commands, and the others what these print. Blocks without a command are passed
# over. EDIT is a command of sed for what is otherwise on this machine than on the page. Lines that told.sed takes out are not compared.
#
# usage: session.sh PAGE SECTION [EDIT]
set -eu
mkdir -p vunit_run/bin tmp home
cp -R "$TOP/examples" "$TOP/wrappers" vunit_run
# (what the launcher does of reports, where VUNIT_RUN isn't the launcher)
cat >vunit_run/bin/vunit_run <<SCRIPT
#!/bin/sh
export VUNIT_RUN_ID=\$(date +%s%N)
[ -z "\${VUNIT_REPORT-}" ] || exec "$TOP/wrappers/vunit_report" --around "\$VUNIT_REPORT" "$VUNIT_RUN" "\$@"
exec "$VUNIT_RUN" "\$@"
SCRIPT
chmod 755 vunit_run/bin/vunit_run
"$VUNIT_RUN" --no-word-of-the-program >/dev/null || [ $? -eq 2 ]

# (a folder in /tmp is one of this test's)
awk -v section="## $2" '
    /^## / { inside = $0 == section }
    inside && /^```/ { fenced = !fenced; is_session = 0; next }
    inside && fenced && /^\$ / { is_session = 1 }
    inside && fenced && is_session' "$TOP/$1" | sed -e "s#/tmp/#$PWD/tmp/#g" -e "${3:-}" >wanted
awk -v quote="'" '
    /^\$ / {
        command = shown = substr($0, 3)
        gsub(quote, quote "\\" quote quote, shown)
        # the status of the command before does not change
        print "kept=$?; printf " quote "%s\\n" quote " " quote "$ " shown quote "; (exit $kept)"
        print command
    }' wanted >commands

if ! grep -q -e '^"$program" ' -e '^vunit_run ' -e ' vunit_run ' -e '^vunit_configs ' commands || ! grep -q '^cp .*examples/' commands; then
    echo "$1 has no session in '$2' that copies an example and runs the program there"
    exit 1
fi
room=$PWD
cd vunit_run
HOME=$room/home TMPDIR=$room/tmp sh "$room/commands" >"$room/printed" 2>&1 </dev/null || :
cd "$room"
diff -r "$TOP/examples" vunit_run/examples || { echo "the session in '$2' of $1 changes examples/"; exit 1; }
sed -E -f "$TOP/tests/support/told.sed" printed | diff wanted -
