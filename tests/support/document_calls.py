"""Compares what documents say of calls with what `main` reaches.

usage: document_calls.py [TOP]

A page says that the program calls a function by "`NAME`, which the program calls" or "the program calls `NAME`". It says that
it doesn't by "`NAME`, for tests", "for tests `NAME`" or "`NAME`, which tests alone call". NAME may have its type before it, and
may be a list of names. In TOUR the column "Where" of the table of steps names calls: those behind a file stand in that file. In
PROMISES each function of the crate of a row that the column "Promise" names is a call too, unless the row says that it is for
tests; laws, whose bodies are empty, aren't called.

Prints what isn't so, and ends with 1 then, else with 0.
"""
import collections, pathlib, re, sys

# Of `reached` this needs `crates_of(TOP)`, the program's crates. `Reader(CRATE, ROOT).functions` are their functions, each with
# crate, path, type, name and text (head and body as tokens). `unreached(TOP)` gives the functions that nothing on the way from
# main reaches, and a count.
import reached

top = pathlib.Path(sys.argv[1] if len(sys.argv) > 1 else ".")
CODES = r"`[^`]+`(?:(?:, and |, | and )`[^`]+`)*"
CALLED = re.compile(rf"({CODES}), which the program calls\b|\bthe program calls (?:its \w+, )?({CODES})")
FOR_TESTS = re.compile(rf"({CODES}),? (?:for tests|which tests alone call)\b|\bfor tests(?: and benches)? ({CODES})")


def key(function):
    return function.crate, str(function.path), function.type, function.name


def root_of(crate):
    folder = top / "crates" / crate / "src"
    return folder / "lib.rt" if (folder / "lib.rt").exists() else folder / "main.rt"


crates = reached.crates_of(top)
functions = [function for crate in crates for function in reached.Reader(crate, root_of(crate)).functions]
unreached = {key(function) for function in reached.unreached(top)[0]}
by_name = collections.defaultdict(list)
for function in functions:
    by_name[function.name].append(function)


def names_in(codes):
    return re.findall(r"`([^`]+)`", codes)


def meant(code, crate=None, file=None):
    """The functions that a name may mean, of a crate or a file where it is one's."""
    parts = re.sub(r"\(.*", "", code).split("::")
    if not all(re.fullmatch(r"\w+", part) for part in parts):
        return []
    found = [f for f in by_name.get(parts[-1], []) if len(parts) == 1 or f.type == parts[-2] or f.crate == parts[-2]]
    return [f for f in found if (crate is None or f.crate == crate) and (file is None or f.path == file)]


def is_called(found):
    return any(key(function) not in unreached for function in found)


def are_called(found):
    return bool(found) and all(key(function) not in unreached for function in found)


def is_law(function):
    return function.text[1] == ["{", "}"]


wrong, claims = [], 0


def claim_called(page, code, found):
    global claims
    claims += 1
    if not found:
        wrong.append(f"{page}: {code} is no function of the program")
    elif not is_called(found):
        wrong.append(f"{page}: nothing on the way from main calls {code}")


def claim_for_tests(page, code, found):
    global claims
    claims += 1
    if are_called(found):
        wrong.append(f"{page}: {code} is called on the way from main")


def rows_of(text, head):
    """The rows of the tables that begin with a head, as lists of cells."""
    for table in text.split(f"\n{head}")[1:]:
        for line in table.splitlines()[2:]:
            if not line.startswith("|"):
                break
            yield [cell.strip() for cell in re.split(r"(?<!\\)\|", line)[1:-1]]


def steps(page, text):
    """The calls of TOUR's steps: files and names of functions, from left to right."""
    rows = list(rows_of(text, "| Step | Where |"))
    if not rows:
        wrong.append(f"{page} has no table of steps")
    for row in rows:
        folder, file, within = None, None, None
        for found in re.finditer(r"`([^`]+)`", row[1]):
            code, before = found[1], row[1][:found.start()].rstrip()[-1:]
            if code.endswith(".rt"):
                folder = (top / "crates" / code).parent if "/" in code else folder
                file = folder / code.rpartition("/")[2] if folder else None
                if file is None or not file.is_file():
                    wrong.append(f"{page}, {row[0]}: there is no file {code}")
                    file = None
                continue
            # (what stands behind a file and a colon is in that file, and so is each further name behind a comma)
            within = file if before == ":" else within if before == "," else None
            if code in crates or not re.fullmatch(r"[a-z_]\w*", code):
                continue
            if within and not meant(code, None, within):
                wrong.append(f"{page}, {row[0]}: {code} isn't in {within.relative_to(top / 'crates')}")
            else:
                claim_called(f"{page}, {row[0]}", code, meant(code, None, within))


pages = [top / "README.md", *sorted((top / "docs").rglob("*.md"))]
for path in pages:
    page, text = str(path.relative_to(top)), path.read_text()
    # (each part is a text and the crate that its names are of, if it is a row of such a table)
    parts = [(row[1], row[0].strip("`")) for row in rows_of(text, "| Crate | Promise |")]
    for said, _ in parts:
        text = text.replace(said, "")
    for said, crate in [(re.sub(r"\s+", " ", text), None), *parts]:
        tested = [code for found in FOR_TESTS.finditer(said) for code in names_in(found[1] or found[2])]
        called = [code for found in CALLED.finditer(said) for code in names_in(found[1] or found[2])]
        for code in tested:
            claim_for_tests(page, code, meant(code, crate))
        for code in called:
            claim_called(page, code, meant(code, crate))
        for code in names_in(said) if crate else []:
            found = meant(code, crate)
            if found and code not in tested + called and not all(is_law(function) for function in found):
                claim_called(f"{page}, {crate}", code, found)
    if path.name == "TOUR.md":
        steps(page, text)

print(*wrong, sep="\n", end="\n" if wrong else "")
print(f"{claims} claims of calls, {len(wrong)} wrong", file=sys.stderr)
sys.exit(1 if wrong else 0)
