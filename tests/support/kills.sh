# Kills builds of a kind at moments of each part of a build, up to a number, four builds at a time. It looks that enough were
# killed, and five in each part.
#
# usage: kills.sh checked|proved MOST LEAST
. "$TOP/tests/support/needs.sh"
needs flock
for lane in 1 2 3 4; do
    mkdir "$lane"
    (cd "$lane" && exec sh "$TOP/tests/support/killed.sh" "$1" "$2" "$lane") >"said_$lane" 2>&1 &
    lanes="${lanes-} $!:$lane"
done
failed=
for each in $lanes; do
    wait "${each%:*}" || { cat "said_${each#*:}"; failed=yes; }
done
[ -z "$failed" ] || exit 1
cat ?/seen >seen
sort seen | uniq -c
for part in copying "the runs of rt" "between copy and rename" "after it"; do
    [ "$(grep -c -x "$part" seen)" -ge 5 ] || { echo "fewer than five kills in this part: $part"; exit 1; }
done
[ "$(wc -l <seen)" -ge "$3" ] || { echo "fewer than $3 kills"; exit 1; }
