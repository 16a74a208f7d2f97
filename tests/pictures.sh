#!/bin/sh
# The pictures in README.md are of real runs, and README shows both. docs/pictures/make makes run.svg anew, and only the seconds
# of the failed test may differ. docs/pictures/make_page makes a picture of the size of page.png; its pixels differ with the
# times of the run, and with Chromium. That is not tried where chromium is missing, or ghdl with the code generator mcode.
# Skipped where python3 is missing.
set -e
. "$TOP/tests/support/needs.sh"
needs python3

# Prints width and height of a PNG.
size_of() {
    python3 - "$1" <<'END'
import struct, sys
with open(sys.argv[1], "rb") as file:
    head = file.read(24)
if head[:8] + head[12:16] != b"\x89PNG\r\n\x1a\nIHDR":
    sys.exit(f"{sys.argv[1]} isn't a PNG")
print(*struct.unpack(">2I", head[16:]))
END
}

for picture in run.svg page.png; do
    grep -qF "(docs/pictures/$picture)" "$TOP/README.md" || { echo "README.md doesn't show docs/pictures/$picture"; exit 1; }
done

python3 -B "$TOP/docs/pictures/make" made.svg
mask='s/([0-9]*\.[0-9] s)/(N s)/'
sed "$mask" made.svg >made
sed "$mask" "$TOP/docs/pictures/run.svg" | diff - made || { echo "docs/pictures/make makes another picture"; exit 1; }
python3 -c 'import sys, xml.dom.minidom; xml.dom.minidom.parse(sys.argv[1])' made.svg
[ "$(grep -c '<text ' made.svg)" -le 30 ]

page=$TOP/docs/pictures/page.png
size=$(size_of "$page")
[ "$(wc -c <"$page")" -le 200000 ] || { echo "docs/pictures/page.png has more than 200,000 bytes"; exit 1; }
if command -v chromium >/dev/null && ghdl --version 2>/dev/null | grep -q 'mcode code generator'; then
    python3 -B "$TOP/docs/pictures/make_page" made.png
    made=$(size_of made.png)
    [ "$made" = "$size" ] || { echo "docs/pictures/make_page makes a picture of $made pixels, and page.png has $size"; exit 1; }
    [ "$(wc -c <made.png)" -le 200000 ] || { echo "docs/pictures/make_page makes more than 200,000 bytes"; exit 1; }
else
    echo "not tried: docs/pictures/make_page, since chromium, or ghdl with mcode, is missing"
fi
