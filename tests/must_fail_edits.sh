# Each must-fail edit fits its crate, without a proof. The crate is in crates.txt. The edit changes a file of its src, since one
# of a definition or a proof shows nothing. Each `old:` text stands in that file exactly once, after the changes above it. The
# gate tries at most 40 of them, in at most ten crates, since the first of a crate proves it anew: those of
# crates/NAME/must-fail. The others lie in tests/edits/NAME. Prints what isn't so. Ends with 0, with 1 where something isn't,
# and with 77 where python3 is missing.
cd -- "${TOP:-$(dirname -- "$0")/..}" || exit 1
. tests/support/needs.sh
needs python3
exec python3 - <<'END'
import pathlib, re, sys

MOST_EDITS, MOST_CRATES = 40, 10
crates = {re.split(r"[ :]", line)[0] for line in pathlib.Path("crates.txt").read_text().splitlines() if line and not line.startswith("#")}
wrong = []

def faults(edit, crate):
    """What keeps an edit from being tried, or makes it show nothing."""
    if not re.fullmatch(r"\w+\.edit", edit.name):
        return ["it isn't named by words that end in .edit"]
    if crate not in crates:
        return [f"crates.txt has no crate {crate}"]
    found, path, old, pairs, texts = [], None, None, 0, {}
    for line in edit.read_text().splitlines():
        kind, text = re.match(r"([^:]*):? ?(.*)", line).groups()
        if line.strip() and kind not in ("file", "old", "new"):
            found.append(f"it has a line that is not read: {line[:60]}")
        elif kind == "file":
            path = pathlib.Path("crates", crate, text)
            if not text.startswith("src/"):
                found.append(f"{text} is no file of src")
            elif not path.is_file():
                return [*found, f"there is no file {path}"]
            texts.setdefault(path, path.read_text() if path.is_file() else "")
        elif kind == "old":
            old = text
        elif kind == "new" and (path is None or not old):
            found.append("a `new:` stands before any `file:` or `old:`")
        elif kind == "new":
            if (count := texts[path].count(old)) != 1:
                found.append(f"{path} has {count} times: {old}")
            if old == text:
                found.append(f"it changes nothing: {old}")
            texts[path] = texts[path].replace(old, text)
            old, pairs = None, pairs + 1
    return found if found or pairs else ["it changes nothing"]

gate = sorted(pathlib.Path("crates").glob("*/must-fail/*"))
others = sorted(pathlib.Path("tests/edits").glob("*/*"))
for edit in gate:
    wrong += [f"{edit}: {fault}" for fault in faults(edit, edit.parts[1])]
for edit in others:
    wrong += [f"{edit}: {fault}" for fault in faults(edit, edit.parts[2])]
if len(gate) > MOST_EDITS or len({edit.parts[1] for edit in gate}) > MOST_CRATES:
    wrong.append(f"the gate tries {len(gate)} edits in {len({edit.parts[1] for edit in gate})} crates, and not at most {MOST_EDITS} in {MOST_CRATES}")
print(*wrong, sep="\n", end="\n" if wrong else "")
print(f"tried: {len(gate)} edits of the gate, {len(others)} others, {len(wrong)} misfits")
sys.exit(1 if wrong else 0)
END
