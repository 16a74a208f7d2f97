# Runs the sessions of README.md and of the pages for users that need no other tool, each in a fresh folder, and compares them
# with the output in the pages. Also the first of the two commands by which README.md says to start (the second is the gate).
# Those with GHDL are run by ghdl.sh and ghdl_examples.sh.
set -e
. "$TOP/tests/support/needs.sh"
needs python3

session() {
    number=$((${number:-0} + 1))
    mkdir "session_$number"
    (cd "session_$number" && sh "$TOP/tests/support/session.sh" "$@") || { echo "in '$2' of $1"; exit 1; }
}

session README.md "A session"
session docs/user/MANUAL.md "Lists and reports"
session docs/user/MANUAL.md "What is compiled again"
session docs/user/COMPILERS.md "A session"
session docs/user/CLUSTER.md "A session"
session docs/user/EDITORS.md "Extensions that call run.py"
session docs/user/EDITORS.md "Project files of other servers"
session docs/user/EDITORS.md "The watch"
echo "$number sessions"

# Each session of these pages is among them, or needs GHDL.
awk '/^## / { section = FILENAME ": " substr($0, 4) } /^```/ { fenced = !fenced } fenced && /^\$ / && !seen[section]++ { print section }' \
    "$TOP/README.md" "$TOP"/docs/user/*.md | while IFS= read -r section; do
    page=${section%%: *}
    page=${page#"$TOP/"}
    grep -q -F "session $page \"${section#*: }\"" "$TOP/tests/readme_session.sh" && continue
    grep -q -F "session.sh\" $page \"${section#*: }\"" "$TOP"/tests/ghdl*.sh || { echo "$page has a session in '${section#*: }' that no script runs"; exit 1; }
done

# The first of the two commands of README.md: with a program that is there it ends well.
mkdir start
cp -R "$TOP/examples" start
mkdir start/bin
printf '#!/bin/sh\nexec "%s" "$@"\n' "$VUNIT_RUN" >start/bin/vunit_run
chmod 755 start/bin/vunit_run
command=$(awk '/^## Start/ { start = 1 } start && /^```/ { fenced++; next } fenced == 1' "$TOP/README.md" | head -n 1)
(cd start && TMPDIR=$PWD sh -c "$command") >said
grep -q '^fail 1 of 3$' said
