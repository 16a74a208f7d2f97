# Invalid command lines give status 2 and the usage text, before anything is looked at. A number of children that is too high
# comes next, and then the project.
. "$TOP/tests/support/program.sh"

# a project that is refused
project vunit.csv 'bad\n'
refused='vunit_run: vunit.csv: bad line 1'
while IFS= read -r words; do
    # shellcheck disable=SC2086
    expect "no command line: $words" 2 "$usage" $words
done <<'ROWS'
--frob
-mm
-m=x
-p 0
-p
-p x
-p -1
-p 18446744073709551616
--num-threads
--generate 0
--generate 18446744073709551616
-x
--export-json
--compile=1
--compile --compile
-p 1 -p 2
-h
--help
--version
-lz
--list -p 65 --frob
ROWS
expect "a word that isn't UTF-8" 2 "$usage" "$(printf '\377')"
expect "a word that isn't UTF-8, after a child's" 2 "$usage" child-analyse "$(printf '\377')"

while IFS= read -r words; do
    # shellcheck disable=SC2086
    expect "too many children: $words" 5 "vunit_run: over limit: slots 64" $words
done <<'ROWS'
-p 65
-p65 --compile
--list --num-threads=65
--compile -p 18446744073709551615
--generate 3 -p 65
ROWS

while IFS= read -r words; do
    # shellcheck disable=SC2086
    told='vunit.csv:1:1: vunit.csv: bad line 1'
    expect "a project that is refused: $words" 1 "$refused" $words
done <<'ROWS'

a.b.* c
-p 64 -k -v -q --fail-fast --clean --exit-0 -x out.xml
compile
--compile
--compile -p 64
--compile -p +3
-l
--list --compile
-lf
--export-json e.json --compile
--export-json=e.json -l a.b.* c
-f
--files --compile
-fkvq -p4
--compile x child-analyse
--compile child-bench
x child-bench
-k --compile --num-threads=8 --clean --exit-0 --fail-fast --xunit-xml=out.xml
--compile -- -l --frob
ROWS
if [ -e vunit_out ] || [ -e e.json ] || [ -e out.xml ]; then
    echo "there is a vunit_out, or a report"
    failures=$((failures + 1))
fi

[ "$failures" -eq 0 ]
