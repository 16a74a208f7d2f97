# Each start has a number of its own, and VUNIT_REPORT=FILE has a report of the run, with the status of the program. A killed
# start leaves a report of a run that was cut off.
. "$TOP/tests/support/needs.sh"
needs python3 pgrep
. "$TOP/tests/support/launcher.sh"

for name in first second; do "$launcher" -c 'echo "$VUNIT_RUN_ID"' >$name 2>/dev/null; done
for name in first second; do
    [ "$(wc -c <$name)" -gt 16 ] || { echo "a start has the number '$(cat $name)'"; exit 1; }
done
if cmp -s first second; then echo "two starts have one number"; exit 1; fi

# The program itself, which the command rt of this test only copies.
program=$VUNIT_RUN
[ "$VUNIT_RUN" != "$TOP/bin/vunit_run" ] || program=$TOP/out/$(head -n 1 "$TOP/out/current")/vunit_run
sed -i "s#cat -- \"\$(readlink -f \"\$(command -v bash)\")\"#cat -- '$program'#" kit/bin/rt
grep -q -F "cat -- '$program'" kit/bin/rt
ln -s "$TOP/wrappers" repo/wrappers
echo '// of the program itself' >>"$main"
mkdir -p project/vunit_out
cat >project/tb.vhd <<'VHDL'
entity t is generic (runner_cfg : string); end;
architecture a of t is begin
x <= run("one");
x <= run("two");
-- child: fail lib.t.two
end;
VHDL
echo 'lib,tb.vhd' >project/vunit.csv
cd project
try "$launcher" '*one'
same "a run without a report" "$status" 0

# Prints the counts of a report.
counts() {
    sed -n 's/^<testsuite name="testsuite" \(.* errors="[0-9]*"\).*/\1/p' "$1"
}

try env VUNIT_REPORT=out.xml "$launcher" -q
same "a run of two tests" "$status $(counts out.xml)" '1 tests="2" failures="1" skipped="0" errors="0"'
has "what it prints" "$said" "fail lib.t.two"
try env VUNIT_REPORT=out.xml "$launcher" '*one'
same "a run of one test" "$status $(counts out.xml)" '0 tests="1" failures="0" skipped="0" errors="0"'
try env VUNIT_REPORT=out.xml "$launcher" -x own.xml --exit-0 '*two'
same "a run with -x" "$status $(counts out.xml) $(counts own.xml)" \
    '0 tests="1" failures="1" skipped="0" errors="0" tests="1" failures="1" skipped="0" errors="0"'
try env VUNIT_REPORT=out.xml "$launcher" --frob
same "wrong words" "$status $(counts out.xml)" '2 tests="1" failures="0" skipped="0" errors="1"'
has "what it says of wrong words" "$said" "usage: vunit_run"
try env VUNIT_REPORT=no/out.xml "$launcher"
same "a report that can't be written" "$status" 2

# A simulator that never ends, and the start is killed. (What runs in this folder is of this test.)
sleepers() {
    pgrep -f '^sleep 100$' | while read -r one; do
        if [ "$(readlink "/proc/$one/cwd")" = "$PWD" ]; then echo "$one"; fi
    done
}
sleepers_are_there() {
    [ -n "$(sleepers)" ]
}
program_is_gone() {
    ! ls -l /proc/[0-9]*/exe 2>/dev/null | grep -q "$(dirname "$PWD")/repo/out/"
}
printf 'simulator = ["sleep", "100"]\n[[library]]\nname = "lib"\nfiles = ["tb.vhd"]\n' >vunit.toml
rm vunit.csv
"$launcher" --compile >/dev/null
env VUNIT_REPORT=out.xml "$launcher" >/dev/null &
started=$!
await sleepers_are_there
kill -KILL "$started"
wait "$started" || :
await program_is_gone
sleepers | while read -r one; do kill "$one"; done
same "a report of a start that was killed" "$(counts out.xml)" 'tests="3" failures="0" skipped="0" errors="3"'
