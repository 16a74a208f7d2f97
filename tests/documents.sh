# No run of twelve words stands in two pages of README.md and docs/, so that each fact has one home. Not counted are fenced
# blocks, the project's sentence in lines with `>`, and pages that are made of comments in the sources. Words between backticks
# count as one. Each link of these pages, and each page that a script names, leads somewhere. ARCHITECTURE has a row for each
# crate of crates.txt, in that order, and their number. README names no public function that the program doesn't call. All
# pages, with CHANGES.md, have at most 70,000 words, and those by hand 48,000, without definitions that a script compares. Prints what isn't so. Ends with 0, with 1 where
# something isn't, and with 77 where python3 is missing.
cd -- "${TOP:-$(dirname -- "$0")/..}" || exit 1
. tests/support/needs.sh
needs python3
exec python3 - <<'END'
import os, pathlib, re, sys

RUN = 12
WORDS, WORDS_BY_HAND = 70_000, 48_000  # of all pages, CHANGES.md too; as wc counts them
MADE = ("docs/proof/DEFINITIONS.md", "docs/proof/CALLS.md")  # by tests/support/proof_pages.py
pages = {str(path): path.read_text() for path in [pathlib.Path("README.md"), *sorted(pathlib.Path("docs").rglob("*.md"))]}

def prose(text):
    """The paragraphs, items and cells of a page, without fenced blocks and quotations."""
    text = re.sub(r"^```.*?^```$", "\n", text, flags=re.M | re.S)
    text = re.sub(r"^>.*$", "", text, flags=re.M)
    text = re.sub(r"\[([^\]]*)\]\([^)]*\)", r"\1", text)
    return re.split(r"\n\n|\n(?=#|- |\d+\. )|(?<!\\)\|", text)

def words(block):
    return re.findall(r"`[^`]+`|[\w'’,.-]*\w", block)

def anchors(text):
    heads = re.findall(r"^#+ (.*)$", re.sub(r"^```.*?^```$", "", text, flags=re.M | re.S), re.M)
    plain = [re.sub(r"[^\w\- ]", "", re.sub(r"\[([^\]]*)\]\([^)]*\)", r"\1", head).lower()).replace(" ", "-") for head in heads]
    return {head if plain[:at].count(head) == 0 else f"{head}-{plain[:at].count(head)}" for at, head in enumerate(plain)}

wrong, seen, links = [], {}, 0
for page, text in pages.items():
    for block in [] if page in MADE else prose(text):
        run = words(block)
        at = 0
        while at + RUN <= len(run):
            key = " ".join(run[at:at + RUN]).lower()
            other = seen.setdefault(key, page)
            if other != page:
                wrong.append(f"{page} and {other}: {' '.join(run[at:at + RUN])}")
                at += RUN
            else:
                at += 1
    for target in re.findall(r"\]\(([^)\s]+)\)", re.sub(r"^```.*?^```$", "", text, flags=re.M | re.S)):
        if re.match(r"[a-z]+:", target):
            continue
        links += 1
        file, _, anchor = target.partition("#")
        to = os.path.normpath(os.path.join(os.path.dirname(page), file)) if file else page
        if not os.path.exists(to):
            wrong.append(f"{page}: the link {target} leads nowhere")
        elif anchor and anchor not in anchors(pages.get(to, "")):
            wrong.append(f"{page}: {to} has no heading for the link {target}")
crates, program = {}, ["vunit_run"]
for line in pathlib.Path("crates.txt").read_text().splitlines():
    if line and not line.startswith("#"):
        uses, _, only_tests = line.partition("#")
        crates[uses.split(":")[0].split()[0]] = set(uses.partition(":")[2].split()) - set(only_tests.split())
for crate in program:
    program += [low for low in crates[crate] if low in crates and low not in program]
tables = [[crate for crate in re.findall(r"^\| `(\w+)` \|", table, re.M) if crate in crates] for table in re.split(r"\n\| Crate ", pages["docs/ARCHITECTURE.md"])[1:]]
(rows,) = tables
wrong.extend(f"docs/ARCHITECTURE.md has no row for {crate}" for crate in crates if crate not in rows)
if rows != [crate for crate in crates if crate in rows]:
    wrong.append("docs/ARCHITECTURE.md hasn't the order of crates.txt")
counts = re.search(r"longest chain of the program has (\d+):\s+(.*?)\. The program has (\d+) of the (\d+) crates; (\d+) are",
                   pages["docs/ARCHITECTURE.md"], re.S)
depth = {}
for crate in crates:
    depth[crate] = 1 + max((depth[low] for low in crates[crate] if low in crates), default=0)
chain = re.findall(r"\w+", counts[2]) if counts else []
has = [int(counts[at]) for at in (1, 3, 4, 5)] if counts else []
right = [depth["vunit_run"], len(program), len(crates), sum(crate.startswith("tests_") for crate in crates)]
if has != right or len(chain) != right[0] or any(low not in crates[high] for low, high in zip(chain, chain[1:])):
    wrong.append(f"docs/ARCHITECTURE.md: longest chain, crates of the program, all crates, crates of tests: {right}, and not {has} with {' '.join(chain)}")
sizes = {page: len(text.split()) for page, text in (pages | {"CHANGES.md": pathlib.Path("CHANGES.md").read_text()}).items()}
every = sum(sizes.values())
quoted = sum(len(block.split()) for page in pages for block in re.findall(r"^```antt .*?^```$", pages[page], re.M | re.S))
by_hand = every - quoted - sum(sizes[page] for page in MADE)
if every > WORDS or by_hand > WORDS_BY_HAND:
    wrong.append(f"the pages have {every} words and those by hand {by_hand}: at most {WORDS} and {WORDS_BY_HAND} are allowed")
sources = {crate: "\n".join(re.sub(r"//.*", "", path.read_text()) for path in pathlib.Path("crates", crate, "src").rglob("*.rt")) for crate in crates}
called = "\n".join(sources[crate] for crate in program)
for name in {name for code in re.findall(r"`([^`\n]+)`", pages["README.md"]) for name in re.findall(r"\w+", code)}:
    if any(re.search(rf"\bpub fn {name}\b", text) for text in sources.values()) and not re.search(rf"(?<!fn )\b{name}(::<[^>]*>)?\(", called):
        wrong.append(f"README.md names {name}, which the program doesn't call")
named = [*pathlib.Path("tests").rglob("*.*"), *pathlib.Path("wrappers").glob("*"), *pathlib.Path("bench").glob("*"), *pathlib.Path("bin").glob("*")]
for path in (path for path in named if path.is_file() and path.suffix not in (".pyc", ".txt", ".edit")):
    for page in re.findall(r"\bdocs/(?:\w+/)*\w+\.md", path.read_text(errors="replace")):
        if not os.path.exists(page):
            wrong.append(f"{path} names {page}, which isn't there")
print(*wrong, sep="\n", end="\n" if wrong else "")
print(f"{len(pages)} pages, {every} words and {by_hand} by hand, {links} links, {len(wrong)} things wrong")
sys.exit(1 if wrong else 0)
END
