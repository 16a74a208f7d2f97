# docs/proof/HEADLINE.md goes through the fields of RunsAs, and names exactly the definitions that these name, and some that those
# name. They are in the order of specs, each with its file, an example and what would make the claim empty, and with a link into
# DEFINITIONS.md if it names more. The lists are computed from specs. The fields `recorded` and `right` of
# RunsTests come last, and what they name themselves. Each block of definitions is that of specs, word by word. Prints what
# differs. Ends with 0, with 1 where something does, and with 77 where python3 is missing.
cd -- "${TOP:-$(dirname -- "$0")/..}" || exit 1
. tests/support/needs.sh
needs python3
exec python3 - <<'END'
import pathlib, re, sys

RUN, TESTS, TEST_FIELDS = ("vunit_top", "Runs", "RunsAs"), ("vunit_top", "Acts", "RunsTests"), ["recorded", "right"]

definitions, imports = {}, {}  # by crate, module and name: the text; by crate and module: what each name or prefix is there
for path in sorted(pathlib.Path("crates").glob("*/specs/*.antt")):
    here = path.parts[1], path.stem
    text, names, name = re.sub(r"--.*", "", path.read_text()), imports.setdefault(here, {}), None
    for of, module, braces, alias in re.findall(r"^(?:pub )?use Rattle\.(\w+)\.specs\.([\w.]+?)(?:\.\{([^}]*)\}| as (\w+))$", text, re.M):
        names |= {alias: (of, module)} if alias else {i.split()[-1]: (of, module, i.split()[0]) for i in braces.split(",") if i.strip()}
    for item in re.split(r"\n(?=\S)", text):
        head = re.match(r"(?:abbrev |unfoldable )?(?:pub )?(?:record |data )?(\w+)", item)
        if re.match(r"(abbrev|unfoldable|pub (record|data)|record|data) ", item):
            name = head[1]
            definitions[*here, name] = item
        elif name and head and head[1] == name:
            definitions[*here, name] += "\n" + item

def origin(key):
    """The definition that a name stands for, where a module hands it on."""
    while key not in definitions and len(key) == 3 and key[2] in imports.get(key[:2], {}):
        key = imports[key[:2]][key[2]]
    return key

def named(key, text=None):
    """The definitions that one names, in order, and not itself."""
    here, found = key[:2], {}
    for word in re.findall(r"[A-Za-z_]\w*(?:\.\w+)*", text or definitions[key]):
        first, rest = (word + ".").split(".")[:2]
        known = imports[here].get(first, (*here, first))
        found[origin(known if len(known) == 3 else (*known, rest))] = None
    return [one for one in found if one in definitions and one != key]

def quoted(text):
    """A block of code without comments, by its words."""
    return re.sub(r"--.*", "", text).split()

fields = dict(re.findall(r"^  pub (\w+) :(.*)", definitions[RUN], re.M))
test_fields = [re.search(rf"^  pub {name} :(.*(?:\n      .*)*)", definitions[TESTS], re.M)[1] for name in TEST_FIELDS]
# (what objects tell is a premise of each field)
own = [one for text in test_fields for one in named(TESTS, text) if one[2] not in ("Disk", "Children", "Object")]
first = list(dict.fromkeys([one for text in [definitions[RUN]] for one in named(RUN, text)] + own))
second = list(dict.fromkeys(two for one in named(RUN) for two in named(one) if two not in first and two != RUN))

page = pathlib.Path("docs/proof/HEADLINE.md").read_text()
wrong = []

def items(heading):
    part = re.search(rf"^## {re.escape(heading)}\n(.*?)(?=^## )", page, re.M | re.S)
    return re.findall(r"^- (.*(?:\n  .*)*)", part[1], re.M) if part else []

def compare(heading, right, whole=True):
    has = []
    for item in items(heading):
        name, crate, module = re.match(r"\*\*`(\w+)`\*\* \(`(\w+)/specs/(\w+)`\)", item).groups()
        has.append((crate, module, name))
        wrong.extend(f"{name} has no {what}" for what in ("Example*: |By hand*: ", "Empty if* ") if not re.search(what.replace("*", r"\*"), item))
        if heading != FIRST and has[-1] in definitions and any(one not in first + second for one in named(has[-1])) and "DEFINITIONS.md#" not in item:
            wrong.append(f"{name} names more, and has no link into DEFINITIONS.md")
    if whole:
        wrong.extend(f"'{heading}' lacks {one[2]} of {one[0]}/specs/{one[1]}" for one in right if one not in has)
    else:
        right = [one for one in right if one in has]
    wrong.extend(f"'{heading}' has {one[2]} of {one[0]}/specs/{one[1]}, which isn't to be there" for one in has if one not in right)
    if sorted(has) == sorted(right) and has != right:
        wrong.append(f"'{heading}' isn't in the order of specs, which is {', '.join(one[2] for one in right)}")

FIRST = "The definitions that the fields name"
told = [re.match(r"\*\*`(\w+)`\*\*", item)[1] for item in items("The fields of `RunsAs`")]
if told != [*fields, *TEST_FIELDS]:
    wrong.append(f"the fields are told as {', '.join(told)}, and are {', '.join([*fields, *TEST_FIELDS])}")
wrong.extend(f"the field {name} doesn't say what would make it empty" for name, item in zip(told, items("The fields of `RunsAs`")) if "*Empty if*" not in item)
compare(FIRST, first)
compare("Of the definitions that these name", second, False)
# each block of code is the definitions that its first line names, word by word
for where, names, block in re.findall(r"^```antt (\S+): ([^\n]*)\n(.*?)^```$", page, re.M | re.S):
    crate, _, module = where.split("/")
    missing = [name for name in names.split() if (crate, module, name) not in definitions]
    wrong.extend(f"{where} has no {name}" for name in missing)
    if not missing and quoted(block) != [word for name in names.split() for word in quoted(definitions[crate, module, name])]:
        wrong.append(f"the block of {where} differs from {names}")
blocks = len(re.findall(r"^```antt ", page, re.M))
if blocks < 6:
    wrong.append(f"{blocks} blocks of definitions are fewer than 6")
print(*(f"docs/proof/HEADLINE.md: {line}" for line in wrong), sep="\n", end="\n" if wrong else "")
print(f"{len(first)} definitions that the fields name, and {len(second)} that these name; {blocks} blocks of definitions")
sys.exit(1 if wrong else 0)
END
