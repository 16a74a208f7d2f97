"""Names the functions of the program's crates that nothing on the way from `main` reaches.

usage: reached.py [--lines] [TOP]

The program's crates are the ones that vunit_run needs by crates.txt. Their sources are read as text: a function is reached if
the body of one that is reached, or a static or a constant, names it. Names that may mean several functions mean all of them:
`x.name(..)` each method of that name, `Type::name` the methods of that type, `T::name` of a parameter each method. A method of
an `impl` for a trait of std counts as reached; that for a trait of this repository where the trait's method is called. Tests
are left out.

Prints a line for each such function that no row of reached.txt names: its crate, its type if it has one, and its name; --lines adds
file and number of lines. A row of reached.txt that names no such function, or has no reason, is printed too. Ends with 0, or with 1
where anything was printed.
"""
import collections, fnmatch, pathlib, re, sys

Function = collections.namedtuple("Function", "crate path kind type name text lines")
TOKEN = re.compile(
    r"""//[^\n]*|/\*.*?\*/|b?"(?:\\.|[^"\\])*"|b?r(#*)".*?"\1|b?'(?:\\[^u]|\\u\{\w+\}|\\x\w\w|[^'\\])'|'\w+|\w+|::|->|=>|\s+|.""",
    re.S,
)


def tokens_of(text):
    """The tokens of a text, each with the line where it starts, without comments and blanks. A literal is the token `""`."""
    tokens, line = [], 1
    for found in TOKEN.finditer(text):
        token = found[0]
        if not token.isspace() and not token.startswith(("//", "/*")):
            literal = token.endswith(('"', "'")) and len(token) > 1 or token.startswith(("r#", "br#"))
            tokens.append(('""' if literal else token, line))
        line += token.count("\n")
    return tokens


def closing(tokens, start):
    """The index of the token that closes the bracket at start."""
    depth = 0
    for at in range(start, len(tokens)):
        depth += (tokens[at][0] in "([{") - (tokens[at][0] in ")]}")
        if depth == 0:
            return at
    return len(tokens) - 1


def head_end(tokens, start):
    """The index of the brace that opens a function's body, or of the semicolon in its place: clauses are passed over."""
    at, clause = start, False
    while at < len(tokens):
        token = tokens[at][0]
        if token in ("requires", "ensures", "decreases", "invariant", "returns", "ghost"):
            clause = True
        elif token in "([":
            at = closing(tokens, at)
        elif token == "{" and clause:
            at, clause = closing(tokens, at), False
        elif token in "{;":
            return at
        at += 1
    return at


def impl_head(tokens, start, end):
    """The trait, if any, and the type of an `impl` between two tokens."""
    at, depth, parts, part = start, 0, [], []
    while at < end:
        token = tokens[at][0]
        if token == "where":
            break
        depth += (token == "<") - (token == ">")
        if depth == 0 and token == "for":
            parts.append(part)
            part = []
        elif depth == 0 and token != ">" and (token[0].isalpha() or token[0] == "_"):
            part.append(token)
        at += 1
    parts.append(part)
    last = [part[-1] if part else "" for part in parts]
    return (last[0], last[1]) if len(last) == 2 else ("", last[0])


class Reader:
    def __init__(self, crate, root):
        self.crate, self.functions, self.traits = crate, [], set()
        # what stands outside functions, and what the `use` items of each file bring in
        self.loose, self.uses = [], collections.defaultdict(dict)
        self.read(root, root.parent)

    def read(self, path, folder):
        self.items(path, folder, tokens_of(path.read_text()), "free", "")

    def items(self, path, folder, tokens, kind, of):
        """Takes the items of a file, or of a trait or an `impl` of it."""
        at, test = 0, False
        while at < len(tokens):
            token = tokens[at][0]
            if token == "#":
                start = at + 1 + (tokens[at + 1][0] == "!")
                end = closing(tokens, start)
                test = test or [t for t, _ in tokens[start:end + 1]][:4] == ["[", "cfg", "(", "test"] or tokens[start + 1][0] == "test"
                at = end + 1
                continue
            if token == "ghost":
                at = self.skip(tokens, at)
            elif token == "use":
                end = self.skip(tokens, at)
                if not test:
                    self.take_use(path, [t for t, _ in tokens[at + 1:end - 1]], "")
                at = end
            elif token == "mod":
                if tokens[at + 2][0] == "{":
                    end = closing(tokens, at + 2)
                    if not test:
                        self.items(path, folder, tokens[at + 3:end], kind, of)
                    at = end + 1
                else:
                    name = tokens[at + 1][0]
                    for file, below in ((folder / f"{name}.rt", folder / name), (folder / name / "mod.rt", folder / name)):
                        if not test and file.exists():
                            self.read(file, below)
                    at += 3
            elif token == "fn":
                end = head_end(tokens, at)
                last = closing(tokens, end) if end < len(tokens) and tokens[end][0] == "{" else end
                if not test:
                    lines = tokens[min(last, len(tokens) - 1)][1] - tokens[at][1] + 1
                    head = [t for t, _ in tokens[at:end]]
                    body = [t for t, _ in tokens[end:last + 1]]
                    self.functions.append(Function(self.crate, path, kind, of, tokens[at + 1][0], (head, body), lines))
                at = last + 1
            elif token == "impl" or token == "trait":
                end = head_end(tokens, at)
                last = closing(tokens, end)
                if token == "trait":
                    inner, name = "trait", tokens[at + 1][0]
                else:
                    start = at + 1
                    if tokens[start][0] == "<":
                        depth = 0
                        while True:
                            depth += (tokens[start][0] == "<") - (tokens[start][0] == ">")
                            start += 1
                            if depth == 0:
                                break
                    trait, name = impl_head(tokens, start, end)
                    inner = trait and "impl " + trait
                    inner = inner or "own"
                if not test:
                    self.items(path, folder, tokens[end + 1:last], inner, name)
                    if token == "trait":
                        self.traits.add(name)
                at, test = last + 1, False
                continue
            elif token in ("static", "const") and tokens[at + 1][0] != "fn":
                end = self.skip(tokens, at)
                if not test:
                    self.loose.append((path, [t for t, _ in tokens[at + 2:end]]))
                at = end
            elif token in ("struct", "enum", "type", "macro_rules"):
                end = self.skip(tokens, at)
                if token == "macro_rules" and not test:
                    self.loose.append((path, [t for t, _ in tokens[at + 2:end]]))
                at = end
            else:
                at += 1
                if token not in ("pub", "unsafe", "extern", "const", "(", ")", "crate", '""'):
                    test = False
                continue
            test = False

    @staticmethod
    def skip(tokens, at):
        """The index after the item that starts at one: after its semicolon, or after its braces."""
        while at < len(tokens):
            token = tokens[at][0]
            if token in "([":
                at = closing(tokens, at)
            elif token == "{":
                at = closing(tokens, at)
                if at + 1 < len(tokens) and tokens[at + 1][0] in (";", "as"):
                    at += 1
                    continue
                return at + 1
            elif token == ";":
                return at + 1
            at += 1
        return at

    def take_use(self, path, tokens, prefix):
        """Notes each name that a `use` brings in, with the path that it stands for."""
        at, here = 0, prefix
        while at < len(tokens):
            token = tokens[at]
            if token == "{":
                end = closing([(t, 0) for t in tokens], at)
                depth, part = 0, []
                for t in tokens[at + 1:end] + [","]:
                    depth += (t == "{") - (t == "}")
                    if t == "," and depth == 0:
                        self.take_use(path, part, here)
                        part = []
                    else:
                        part.append(t)
                return
            if token == "as":
                self.uses[path][tokens[at + 1]] = here
                return
            if token == "::":
                here += "::"
            elif token != "pub":
                here += token
            at += 1
        if here:
            self.uses[path][here.split("::")[-1]] = here


def crates_of(top):
    """The crates that vunit_run needs, each with its uses."""
    uses = {}
    for line in (top / "crates.txt").read_text().splitlines():
        line = line.split("#")[0]
        if ":" in line:
            uses[line.split(":")[0].split()[0]] = line.split(":")[1].split()
    needed = ["vunit_run"]
    for crate in needed:
        needed += [low for low in dict.fromkeys(uses[crate]) if low in uses and low not in needed]
    below = {}

    def all_below(crate):
        if crate not in below:
            below[crate] = {crate}.union(*(all_below(low) for low in uses[crate] if low in uses))
        return below[crate]

    return {crate: all_below(crate) for crate in uses if crate in needed}


def unreached(top):
    crates = crates_of(top)
    readers = {}
    for crate in crates:
        root = top / "crates" / crate / "src"
        readers[crate] = Reader(crate, root / "lib.rt" if (root / "lib.rt").exists() else root / "main.rt")
    functions = [function for reader in readers.values() for function in reader.functions]
    traits = {name for reader in readers.values() for name in reader.traits}
    free, methods, of_type = (collections.defaultdict(list) for _ in range(3))
    for function in functions:
        if function.kind == "free":
            free[function.name].append(function)
        else:
            methods[function.name].append(function)
            of_type[function.type, function.name].append(function)

    def resolve_free(name, crate, path, qualified):
        """The free functions that a name may mean in a file."""
        found = free.get(name, [])
        if not found:
            return []
        own = [f for f in found if f.path == path]
        if own and not qualified:
            return own
        use = readers[crate].uses[path].get(name)
        if use and not qualified:
            first = use.split("::")[0]
            name = use.split("::")[-1]
            found = free.get(name, [])
            if first in crates:
                return [f for f in found if f.crate == first] or again(first, name)
            return [f for f in found if f.crate == crate] or again(crate, name)
        if qualified:
            use = readers[crate].uses[path].get(qualified[-1], qualified[-1])
            first = (qualified[0] if qualified[0] in crates else use.split("::")[0])
            if first in crates:
                return [f for f in found if f.crate == first] or again(first, name)
            return [f for f in found if f.crate == crate]
        return []

    def again(crate, name):
        """What a crate hands on under a name of another one."""
        for uses in readers[crate].uses.values():
            if name in uses and uses[name].split("::")[0] in crates:
                other = uses[name].split("::")
                return [f for f in free.get(other[-1], []) if f.crate == other[0]]
        return []

    def named(crate, path, of, head, body):
        found = []
        for at, token in enumerate(body):
            if not (token[0].isalpha() or token[0] == "_"):
                continue
            before = body[at - 1] if at else ""
            after = body[at + 1] if at + 1 < len(body) else ""
            if before == ".":
                if after == "(" or after == "::":
                    found += [f for f in methods.get(token, []) if f.kind != "own" or f.crate in crates[crate]]
            elif before == "::":
                # (what stands before the last `::` may end with parameters)
                back, path_names = at - 1, []
                while back > 0 and body[back] == "::":
                    back -= 1
                    if body[back] == ">":
                        depth = 0
                        while True:
                            depth += (body[back] == ">") - (body[back] == "<")
                            back -= 1
                            if depth == 0:
                                break
                        if body[back] == "::":
                            continue
                    if back < 0 or not (body[back][0].isalpha() or body[back][0] == "_"):
                        break
                    path_names.insert(0, body[back])
                    back -= 1
                last = path_names[-1] if path_names else ""
                if last and last[0].islower() or not last and token in free:
                    found += resolve_free(token, crate, path, path_names or [crate])
                if token in methods and not (last and last[0].islower()):
                    name = of if last == "Self" else readers[crate].uses[path].get(last, last).split("::")[-1]
                    exact = [f for f in of_type.get((name, token), []) if f.kind == "trait" or f.crate in crates[crate]]
                    found += exact if exact and name not in traits else methods[token]
            elif token in free or token in readers[crate].uses[path]:
                if after != "(" and is_local(token, head, body):
                    continue
                use = readers[crate].uses[path].get(token, token)
                found += resolve_free(token if token in free else use.split("::")[-1], crate, path, None) if token in free else [
                    f for f in free.get(use.split("::")[-1], []) if f.crate == (use.split("::")[0] if use.split("::")[0] in crates else crate)
                ]
        return found

    def is_local(name, head, body):
        """Whether a name is a parameter or a variable of a function."""
        for tokens in (head, body):
            for at, token in enumerate(tokens[:-1]):
                if token == name and (tokens[at + 1] == ":" or tokens[at - 1] in ("let", "mut", "ref", "|", "for")):
                    return True
        return any(
            token == name and body[at - 1] in ("(", ",") and body[at + 1] in (")", ",") and "=>" in body[at:at + 6]
            for at, token in enumerate(body[:-1])
        )

    waiting = [f for f in functions if f.crate == "vunit_run" and f.name == "main" and f.kind == "free"]
    waiting += [f for f in functions if f.kind.startswith("impl ") and f.kind[5:] not in traits]
    for crate, reader in readers.items():
        for path, body in reader.loose:
            waiting += named(crate, path, "", [], body)
    reached = set()
    while waiting:
        function = waiting.pop()
        key = id(function)
        if key not in reached:
            reached.add(key)
            head, body = function.text
            waiting += named(function.crate, function.path, function.type, head, body)
    return [f for f in functions if id(f) not in reached], len(functions)


def main():
    words = [word for word in sys.argv[1:] if word != "--lines"]
    top = pathlib.Path(words[0] if words else ".")
    rows = [row.partition(": ") for row in pathlib.Path(__file__).with_suffix(".txt").read_text().splitlines() if row[:1] not in ("", "#")]
    left, count = unreached(top)
    used, wrong = set(), 0
    for f in left:
        name = f"{f.crate} {f.type + '::' if f.type else ''}{f.name}"
        row = next((row for row, _, _ in rows if fnmatch.fnmatchcase(name, row)), None)
        used.add(row)
        if row is None:
            wrong += 1
            print(f"{name} {f.path.relative_to(top)} {f.lines}" if "--lines" in sys.argv else name)
    for row, _, why in rows:
        if row not in used or not why:
            wrong += 1
            print(f"the row {row} of reached.txt {'names nothing that main does not reach' if why else 'has no reason'}")
    print(f"{count} functions, {len(left)} that main doesn't reach, {wrong} things wrong", file=sys.stderr)
    sys.exit(1 if wrong else 0)


if __name__ == "__main__":
    main()
