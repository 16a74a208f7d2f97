# .ci/run refuses a PROVED of other sources before anything is proved, and ends with the status of rt ci where that fails. Else
# it tells of the scripts, over the checked program and over the one that rt ci left, which later starts then run. A script that
# could not be tried has failed, except scripts that need GHDL, Slurm or Chromium, which are skipped by name.
. "$TOP/tests/support/launcher.sh"
mkdir -p repo/.ci repo/tests repo/crates/vunit_run/out
cp "$TOP/.ci/run" repo/.ci
cp "$TOP/tests/run" repo/tests
unset VUNIT_RUN

# Runs the gate with this status of rt ci, and compares its own, its last lines, and one line between them if it is given.
gate() {
    echo "$1" >notes/status
    : >notes/calls
    status=0
    bash repo/.ci/run >said 2>&1 || status=$?
    if [ "$status" -ne "$2" ] || [ "$(tail -n 2 said)" != "$3" ] || ! grep -Fqx "${4:-rt ci}" said; then
        echo "rt ci ends with $1: status $status, and it said:"
        cat said
        exit 1
    fi
}
refused="0 skipped:
0 passed, 1 failed"

# scripts that note the kind of the program that they are run over
for name in a readme_session program_random_projects program_hostile_texts; do
    echo 'grep -a -o "^kind: .*" "$VUNIT_RUN" >>'"'$PWD/notes/kinds.$name'" >"repo/tests/$name.sh"
done
printf 'ls\n[ -z "$(ls)" ]\n' >repo/tests/c.sh
cp "$TOP/tests/support/needs.sh" repo
lacks=". '$PWD/repo/needs.sh'; needs sh no_such_command; exit 1"
names=$(cd "$TOP/tests" && grep -l -e '^\. .*/ghdl_parts' -e '^missing=.*own_slurm' -- *.sh | sed 's/\.sh$//' | tr '\n' ' ' | sed 's/ $//')
for name in $names; do echo "$lacks" >"repo/tests/$name.sh"; done
skipped=$(echo "$names" | wc -w)

# PROVED is missing, of other sources, of another toolchain: nothing is proved
not_proved=".ci/run: PROVED isn't of these sources and this toolchain, so nothing was proved"
gate 0 1 "$refused" "$not_proved"
same "calls of rt" "$(cat notes/calls)" version
repo/bin/prove --sum 2>/dev/null
cp repo/PROVED PROVED
echo '// another' >>"$main"
gate 0 1 "$refused" "$not_proved"
has "the sums" "$(cat said)" "PROVED names other sources, with the sum $(sed -n 's/^sources //p' PROVED), and these have the sum $(. "$TOP/tests/support/sum_of.sh")"
same "calls of rt" "$(cat notes/calls)" version
repo/bin/prove --sum 2>/dev/null
sed 's/^toolchain .*/toolchain rattle-kit-0/' repo/PROVED >PROVED
cp PROVED repo/PROVED
gate 0 1 "$refused" "$not_proved"
has "the toolchains" "$(cat said)" "PROVED names the toolchain rattle-kit-0, and this is rattle-kit-1 of the tests"
same "calls of rt" "$(cat notes/calls)" version
repo/bin/prove --sum 2>/dev/null
same "what is in out" "$(ls repo/out 2>/dev/null || :)" ""

gate 3 3 "$refused" ".ci/run: rt ci failed with status 3, as it says above, so the scripts of tests/ were not run"
# a source that changes while all is proved
cp "$main" source
echo "echo '// late' >>'$main'" >notes/meanwhile
gate 0 1 "$refused" ".ci/run: the sources or PROVED changed while they were proved"
rm notes/meanwhile
cp source "$main"
same "what is in out" "$(ls repo/out 2>/dev/null || :)" ""

all="$skipped skipped: $names
5 passed, 0 failed"
gate 0 0 "$all" "over_slurm: skipped: no_such_command is missing"
same "over which programs" "$(cd notes && grep -h . kinds.*; ls kinds.*)" "kind: proved
kind: checked
kind: proved
kind: checked
kind: proved
kind: checked
kind: proved
kinds.a
kinds.program_hostile_texts
kinds.program_random_projects
kinds.readme_session"
same "what the gate leaves" "$(sed -n '/^kind/p; /^sources/p; /^sha256/p; /skipped/,$p' repo/out/gate)" "kind proved
sources $(. "$TOP/tests/support/sum_of.sh")
sha256 $(sha256sum <repo/crates/vunit_run/out/vunit_run | cut -c 1-64)
$all"
: >notes/calls
try repo/bin/vunit_run -c "$show_kind"
same "a start after the gate" "$status $said $(grep -v version notes/calls)" "0 kind: proved "
# where out/ has a program of another proof, that of this gate takes its place
echo '// of another proof' >>"$(echo repo/out/proved-*/vunit_run)"
gate 0 0 "$all"
cmp "$(echo repo/out/proved-*/vunit_run)" repo/crates/vunit_run/out/vunit_run

# No checked program can be built: the gate fails.
: >notes/no_link
rm -r repo/out/checked-*
gate 0 1 "$refused" ".ci/run: no checked program can be built: rattle-link doesn't link the program: error: nothing links"
rm notes/no_link
[ ! -e repo/out/gate ] || { echo "a gate that failed leaves what bin/package packs"; exit 1; }

# A script that fails over the checked program alone
echo 'grep -q -a "^kind: proved" "$VUNIT_RUN"' >repo/tests/program_random_projects.sh
gate 0 1 "0 skipped:
2 passed, 1 failed" "program_random_projects: FAILED with status 1; it said:"
echo : >repo/tests/program_random_projects.sh

# Other scripts may not be skipped, whatever their names have in them; nor may these fail.
SKIP="d ghdl_other"
export SKIP
for name in d ghdl_other; do echo "$lacks" >"repo/tests/$name.sh"; done
gate 0 1 "$skipped skipped: $names
5 passed, 2 failed" "d: FAILED, since it could not be tried and SKIP has not its name: no_such_command is missing"
[ ! -e repo/out/gate ] || { echo "a gate that failed leaves what bin/package packs"; exit 1; }
rm repo/tests/d.sh repo/tests/ghdl_other.sh
echo 'exit 2' >repo/tests/over_slurm.sh
gate 0 1 "$((skipped - 1)) skipped: ${names% over_slurm}
5 passed, 1 failed" "over_slurm: FAILED with status 2; it said:"

# A part that could not be tried is named.
echo 'echo "not tried: a part"; echo "of many"' >repo/tests/over_slurm.sh
gate 0 0 "$((skipped - 1)) skipped: ${names% over_slurm}
6 passed, 0 failed" "  not tried: a part"

# Without SKIP none may be skipped.
unset SKIP
status=0
VUNIT_RUN=$PWD/repo/crates/vunit_run/out/vunit_run repo/tests/run ghdl >said 2>&1 || status=$?
[ "$status" -eq 1 ] && [ "$(tail -n 1 said)" = "0 passed, 1 failed" ]
