#!/bin/sh
# docs/proof/DEFINITIONS.md and CALLS.md are what tests/support/proof_pages.py makes of the sources, and have fewer than 17,000
# words together. Where a comment, a label or a cited name changes, they are to be made anew: this script sees each in a copy of
# the sources. At most BARE definitions and public calls have no comment: lower that number where some get one, and never raise
# it. Ends with 0, with 1 if a page differs, and with 77 if python3 is missing.
top=${TOP:-$(cd -- "$(dirname -- "$0")/.." && pwd)} || exit 1
. "$top/tests/support/needs.sh"
needs python3
room=$(mktemp -d) || exit 1
trap 'rm -rf "$room"' EXIT
MOST=17000
BARE=0
wrong=0

# Makes both pages of a checkout in the folder of a name.
make_pages() {
    mkdir -p "$room/$2" && python3 "$top/tests/support/proof_pages.py" "$1" "$room/$2" || exit 1
}

make_pages "$top" made
for page in DEFINITIONS CALLS; do
    diff "$top/docs/proof/$page.md" "$room/made/$page.md" || {
        echo "docs/proof/$page.md isn't made of these sources: run tests/support/proof_pages.py . docs/proof"
        wrong=1
    }
done
words=$(cat "$room"/made/*.md | wc -w)
[ "$words" -lt "$MOST" ] || { echo "the two pages have $words words, and are to have fewer than $MOST"; wrong=1; }

# How many definitions and public calls of a checkout have no comment.
count_bare() {
    python3 "$top/tests/support/proof_pages.py" --bare "$1" | wc -l
}

bare=$(count_bare "$top")
[ "$bare" -le "$BARE" ] || { echo "$bare definitions and public calls have no comment, and only $BARE may"; wrong=1; }

# Changes a file of a copy of the sources by a command of sed, and expects a change of a page.
plant() {
    crate=$room/copy/crates/${2%%/*}
    rm -rf "$room/copy" && mkdir -p "$room/copy/crates" && cp "$top/crates.txt" "$room/copy/" || exit 1
    ln -s "$top"/crates/* "$room/copy/crates/" && rm "$crate" && cp -r "$top/crates/${2%%/*}" "$crate" || exit 1
    sed -i "$3" "$room/copy/crates/$2" || exit 1
    ! cmp -s "$top/crates/$2" "$room/copy/crates/$2" || { echo "nothing was planted in $2"; wrong=1; }
    make_pages "$room/copy" planted
    ! cmp -s "$room/made/$1.md" "$room/planted/$1.md" || { echo "a change of $2 isn't seen in $1.md"; wrong=1; }
}

plant DEFINITIONS base/specs/Graphs.antt 's/^-- At most 4,096 files/-- Some files/'
plant CALLS vunit_top/src/top.rt 's/^\(    ensures \)running {/\1ended {/'
plant CALLS order/src/ordering.rt 's,^/// ,/// Perhaps: ,'
plant DEFINITIONS order/src/ordering.rt 's/GivesOrder/GivesAnyOrder/'
plant DEFINITIONS base/specs/Names.antt '/^-- a number lies between two bounds/d'
[ "$(count_bare "$room/copy")" -gt "$bare" ] || { echo "a comment that is gone isn't seen"; wrong=1; }
python3 "$top/tests/support/proof_pages.py" --bare "$room/copy" 2>"$room/complaint" | :
[ ! -s "$room/complaint" ] || { echo "--bare doesn't end quietly where its reader closes the pipe"; wrong=1; }
exit "$wrong"
