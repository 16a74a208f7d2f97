#!/bin/sh
# Each message of the program stands exactly once in the section Messages of docs/user/MANUAL.md, and nothing else does. The literals of
# the crates that write messages are compared with the code in the first column of its tables, where words in capitals and numbers vary:
#
# - each literal of two or more words stands in one text, or in as many as SEVERAL says, since several messages share it;
# - each text consists of such literals, and of shorter ones of these crates; no text stands in two rows.
#
# A text that ends with ` ..` is the beginning of its message. Prints what is not so. Ends with 0, with 1 if something is not so, and
# with 77 if python3 is missing.
cd -- "${TOP:-$(dirname -- "$0")/..}" || exit 1
. tests/support/needs.sh
needs python3
exec python3 - <<'END'
import pathlib, re, sys

CRATES = ("vunit_hints", "vunit_hints", "vunit_hints", "system_*", "report", "report", "report", "vunit_run")
# The usage text, and what the built-in compiler and simulator print.
OTHERS = ("vunit_top/src/ends.rt", "child_tools/src/answers.rt", "child_tools/src/ends.rt")
# Lines of --help, which the table of options has, and XML.
PASSED_OVER = ("vunit_hints/src/options.rt", "report/src/xml.rt")
SUBJECTS = {"a child", "a command", "a report", "standard input", "standard output"}  # of a fault
SEVERAL = {"[~/~] ~ passed, ~ failed": 2, "Compiling into": 3, "did you mean": 2, "no architecture": 2, "no unit": 3, "over limit": 6,
           "stands twice": 5, "tests passed: ~, failed": 2, "use of": 2, "wrong value of": 3}
FOLDER = "vunit_out/tests"  # in a message, the folder of a test
ENDS = " :;,.()~?/"

def plain(text):
    """A text without the program's name, and with `~` for what varies: words in capitals, numbers, and what a format has in braces."""
    text = re.sub(r"^(?:vunit_run: )?(?:warning: )?", "", text)
    text = re.sub(r"\{\w*\}|\\x1b\[\S*|\b[A-Z]+\b|(?<![\w])\d+(?:\.\d+)?\b", "~", text)
    return " ".join(text.split()).strip(ENDS)

def literals(path):
    """The literals of a source, without its comments."""
    text = re.sub(r"^\s*//.*", "", path.read_text(), flags=re.M)
    for found in re.finditer(r"b'(?:\\.|[^'\\])'|\"((?:\\.|[^\"\\])*)\"", text):
        if found[1]:
            yield plain(found[1].replace("\\n", "").replace('\\"', '"'))

def found_in(part, text):
    return re.search(rf"(?<!\w){re.escape(part)}(?!\w)", text)

root = pathlib.Path("crates")
paths = [path for crate in CRATES for path in sorted(root.glob(f"{crate}/src/**/*.rt")) if "tests" not in (path.stem, *path.parts[3:])]
paths = [*paths, *(root / other for other in OTHERS)]
parts = {part: path for path in paths if not str(path).endswith(PASSED_OVER) for part in literals(path) if re.search(r"[A-Za-z]", part)}
messages = {part: path for part, path in parts.items() if " " in part and part not in SUBJECTS}

page = pathlib.Path("docs/user/MANUAL.md").read_text()
section = re.search(r"^## Messages\n.*?(?=^## )", page, re.M | re.S)[0]
tables = [table for table in re.findall(r"(?:^\|.*\n)+", section, re.M) if re.match(r"\| (?:Message|CALL)", table)]
rows = [row.split(" | ")[0] for table in tables for row in table.splitlines()[2:]]
texts = [text for row in rows for text in re.findall(r"`([^`]+)`", row)]
wrong = [f"'{text}' stands in the tables twice" for text in set(texts) if texts.count(text) > 1]

whole = [plain(text) for text in texts if not text.endswith(" ..")]
begun = [plain(text[:-3]) for text in texts if text.endswith(" ..")]
for message, path in messages.items():
    times = sum(bool(found_in(message, text)) for text in whole) + sum(message.startswith(text) for text in begun)
    if times != SEVERAL.get(message, 1):
        wrong.append(f"'{message}' of {path} stands in {times} texts of the tables, and not in {SEVERAL.get(message, 1)}")
wrong.extend(f"SEVERAL has '{message}', which is no message" for message in SEVERAL.keys() - messages.keys())
for text in whole:
    left = text
    for part in sorted([*parts, FOLDER], key=len, reverse=True):
        left = re.sub(rf"(?<!\w){re.escape(part)}(?!\w)", "~", left)
    if re.search(r"[A-Za-z]", left):
        wrong.append(f"no literal of these crates has '{left.strip(ENDS)}' of '{text}'")
wrong.extend(f"no message begins with '{text}'" for text in begun if not any(message.startswith(text) for message in messages))
print(*wrong, sep="\n", end="\n" if wrong else "")
print(f"{len(messages)} literals, {len(rows)} rows, {len(texts)} texts, {len(wrong)} things wrong")
sys.exit(1 if wrong else 0)
END
