#!/bin/sh
# Documents are in plain English: a page never uses the phrases below, and no sentence has more than 35 words. Fenced blocks,
# quotations, links and the pages made of comments in the sources do not count; code between backticks is one word. Comments of
# crates, scripts, wrappers and benches have at most 50 such faults; indented lines in them do not count, nor folders that are
# named `out`, which hold what is built. Ends with 0, with 1 if there are faults, and with 77 if python3 is missing.
cd -- "${TOP:-$(dirname -- "$0")/..}" || exit 1
. tests/support/needs.sh
needs python3
exec python3 - <<'END'
import ast, inspect, pathlib, re, sys

LONG = 35
IN_COMMENTS = 50
FOLDERS = ("crates", "wrappers", "bin", "tests", "bench", ".ci")
MARKS = {".rt": r"//[/!]?", ".antt": "--", ".vhd": "--"}  # "#" in all others
MADE = ("docs/proof/DEFINITIONS.md", "docs/proof/CALLS.md")  # by tests/support/proof_pages.py
PHRASES = re.compile(r"\b(?:" + "|".join((
    # statuses without their noun: say "out of date", "up to date", "unchanged"
    "(?:as|than) it (?:is|was)(?: now| before)?", "(?:as|than) they (?:are|were)(?: now| before)?", "gives? what it gave",
    "(?:isn't|is not) compiled as", "compiled otherwise", "that is there twice", "(?:is|are|stands?) there twice", "(?:is|are) there anyway",
    # conditions without their noun: say "without a pattern", "if the file does not exist"
    "where there (?:is|are) (?:none|one|no)", "where it (?:isn't|is not|hasn't|has not|doesn't|does not)", "(?:has|have|had|is|are) none",
    "(?:is|are) (?:neither|none) of", "for want of", "all the same", "the other way (?:about|round)", "likewise",
    # who or which thing is meant: say the noun
    "so (?:much|many|long)", "what (?:is|are|was) (?:said|known|told|asked|there|wrong|shown|kept|meant|left)(?: of)?", "(?:is|are|was) (?:said|told) of",
    "what (?:becomes?|became) of", "what (?:is|are) to be", "what it (?:has|gave|said|asks)", "all that (?:is|are|was|were)", "all of it",
    "(?:is|are) to be (?:read|known|had|told|seen)", "those that", "that which", "none of (?:those|these|them)", "one that (?:isn't|didn't|hasn't)",
    "(?:a|any|each) \w+ that (?:is|are) (?:no|none)", "(?<!there )(?:is|are) no \w+", "of which the", "(?:counts?|count) for nothing", "leaves alone",
    "no command line", "a word as any other", "by words",
    # the statement at the end: say it first
    r"\*?(?:proved|tested|trusted)\*?(?:, not proved,)? (?:is|are) (?:that|a|the)", "so (?:is|are|has|have|does|do) (?:a|an|the|that|its|those)",
)) + r")\b", re.I)
TABLE = re.compile(r"^\|[-:| ]+\|$", re.M)
END_OF_SENTENCE = re.compile(r"(?<=[.!?])(?<!\.\.)[*_)\"']*\s+(?=[\"'(*_`\[]*[A-Z`\[*(])")

def blocks(text):
    """The paragraphs, items and cells of a page, without fenced blocks, quotations and links, and each code as one word."""
    text = re.sub(r"^```.*?^```$", "\n\n", text, flags=re.M | re.S)
    text = TABLE.sub("", re.sub(r"^>.*$", "", text, flags=re.M))
    text = re.sub(r"``.+?``|`[^`]+`", "`CODE`", text)
    text = re.sub(r"\[([^\]]*)\]\([^)]*\)", r"\1", text)
    for block in re.split(r"\n\n|\n(?=#|\s*- |\d+\. )|\|", text):
        if block.strip():
            yield re.sub(r"^(?:#+|- |\d+\.)\s*", "", " ".join(block.split()))

def faults(text):
    """The phrases and the long sentences of a page."""
    for block in blocks(text):
        for found in PHRASES.finditer(block):
            yield f"'{found[0]}' in: {block[max(0, found.start() - 40):found.end() + 40]}"
        for sentence in END_OF_SENTENCE.split(block):
            count = len(re.findall(r"[\w`'’-]*\w", sentence))
            if count > LONG:
                yield f"{count} words: {sentence[:100]} .."

def comments(path, text):
    """The comments of a script, or of a module in Rattle, Python or VHDL, without their indented lines: blocks of lines, and docstrings."""
    is_python = path.suffix == ".py" or "python" in text.partition("\n")[0]
    if is_python:
        tree = ast.walk(ast.parse(text))
        documented = (ast.Module, ast.ClassDef, ast.FunctionDef)
        yield from (inspect.cleandoc(ast.get_docstring(node) or "") for node in tree if isinstance(node, documented))
    mark = MARKS.get(path.suffix, "#")
    yield from re.sub(rf"^ *{mark} ?", "", "\n".join(
        line if re.match(rf" *{mark}(?!!)", line) else "" for line in text.splitlines()), flags=re.M).split("\n\n")

def faults_of_comments():
    """The faults of all comments."""
    for path in sorted(path for folder in FOLDERS for path in pathlib.Path(folder).rglob("*") if "out" not in path.parts):
        if path.suffix in ("", ".py", ".sh", *MARKS) and path.is_file() and "data" not in path.parts:
            for text in comments(path, path.read_text(errors="replace")):
                for fault in faults(re.sub(r"^(?:  |\t).*$", "\n", text, flags=re.M)):
                    yield f"{path}: {fault}"

pages = [pathlib.Path("README.md"), pathlib.Path("CHANGES.md"), *sorted(pathlib.Path("docs").rglob("*.md"))]
pages = [page for page in pages if str(page) not in MADE]
found = [f"{page}: {fault}" for page in pages for fault in faults(page.read_text())]
in_comments = list(faults_of_comments())
named = found + (in_comments if len(in_comments) > IN_COMMENTS else [])
print(*named, sep="\n", end="\n" if named else "")
print(f"{len(found)} in {len(pages)} pages, {len(in_comments)} in comments")
sys.exit(1 if found or len(in_comments) > IN_COMMENTS else 0)
END
