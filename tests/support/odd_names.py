"""What program_odd_names.sh does: names of any bytes and links of all kinds, by hand and at random, beside find."""
import os, random, shutil, subprocess, sys

from told import without_told
from trial import PROGRAM, end, fail, package, project, toml, write

BENCH = ("entity {0} is generic (runner_cfg : string); end;\narchitecture a of {0} is begin process begin\n"
         'if run("x") then end if;\nend process; end;\n-- child: fail lib.{0}.x\n')
TOML = toml({"lib": ["**/*.vhd"]})
FAULT = b"vunit_run: fault of tree\n"
ODD = b"list: its name isn't UTF-8\n"
TREES = 150
NOBODY = 65534


def run(*words, user=None):
    """Status and both outputs of a run in the folder `project`, perhaps as another user."""
    before = ["setpriv", f"--reuid={user}", "--clear-groups"] if user else []
    ran = subprocess.run([*before, PROGRAM, *words], cwd="project", stdin=subprocess.DEVNULL, capture_output=True)
    return ran.returncode, ran.stdout, without_told(ran.stderr)


def expect(name, wanted, *words, user=None):
    found = run(*words, user=user)
    if found != wanted:
        fail(name, f"it is {found}\nand not {wanted}")


def make(path, what):
    """Makes what lies at a path of any bytes below the project: a file, a folder, or a link to a target."""
    path = os.path.join(b"project", path)
    os.makedirs(os.path.dirname(path), exist_ok=True)
    if what == "folder":
        os.mkdir(path)
    elif what == "file":
        open(path, "wb").close()
    else:
        os.symlink(what, path)


# A name that is not UTF-8, in its shown form, at each depth, of a file and of a folder. Files whose benches fail lie beside it
# under names before and after it, so that a listing which leaves out a part would leave out some of these.
for depth in b"", b"src/", b"src/deep/":
    for odd, shown in (b"Gr\xf6\xdfe.txt", b"Gr??e.txt"), (b"\xff", b"?"), (b"z\x01\xc3\xa4\xff", b"z????"):
        for what in "file", "folder":
            files = {f"{depth.decode()}tb_{at:02}.vhd": BENCH.format(f"tb_{at:02}") for at in range(20)}
            project("project", {"vunit.toml": TOML, **files})
            make(depth + odd, what)
            for words in ["-f"], ["-l"], [], ["--compile"]:
                wanted = 3, b"", FAULT + b"vunit_run: " + depth + shown + b": " + ODD
                expect(f"{what} {odd} in {depth}", wanted, *words)

# A name that begins with a dot is passed over, whatever its bytes, and so is all below vunit_out.
project("project", {"vunit.toml": TOML, "a.vhd": package("a")})
for path in b".\xff", b"src/.h\xff", b".git/\xff", b"vunit_out/\xff", b"vunit_out/tests/\xff/x":
    make(path, "file")
expect("names that are passed over", (0, b"lib, a.vhd\nListed 1 files\n", b""), "-f")

# A link that cannot be followed is named, also where it is a source of a list. The same link is nothing where no pattern
# matches it, and one to a folder is not entered.
ABSENT, LOOP = b"No such file or directory (os error 2)", b"Too many levels of symbolic links (os error 40)"
for target, call, said in [
    ("nothing", b"follow the link", ABSENT), ("b.vhd", b"open", LOOP), ("a.vhd/x", b"follow the link", b"Not a directory (os error 20)"),
    ("x" * 300, b"follow the link", b"File name too long (os error 36)"),
]:
    wanted = 3, b"", FAULT + b"vunit_run: b.vhd: " + call + b": " + said + b"\n"
    for text in TOML, None:
        files = {"vunit.toml": TOML} if text else {"vunit.csv": "lib,a.vhd\nlib,b.vhd\n"}
        project("project", {**files, "a.vhd": package("a")})
        make(b"b.vhd", target)
        for words in ["-f"], ["-l"], []:
            expect(f"a link to {target}", wanted, *words)
for name in "vunit.toml", "vunit.csv":
    project("project", {"vunit.csv": "lib,a.vhd\n", "a.vhd": package("a")} if name == "vunit.toml" else {"a.vhd": package("a")})
    make(name.encode(), "nothing")
    expect(f"a link {name}", (3, b"", FAULT + b"vunit_run: " + name.encode() + b": follow the link: " + ABSENT + b"\n"), "-f")
project("project", {"vunit.toml": TOML, "a.vhd": package("a"), "src/b.vhd": package("b")})
for path, target in (b"notes.txt", "nothing"), (b"linked", "src"), (b"c.vhd", "a.vhd"), (b"folder.vhd", "src"), (b"null.vhd", "/dev/null"):
    make(path, target)
with open("project/a.vhd", "w") as file:
    file.write("")
expect("links that are followed or matter to nobody", (0, b"lib, a.vhd\nlib, c.vhd\nlib, src/b.vhd\nListed 3 files\n", b""), "-f")

# What this user may not look at is named, and nothing of it is passed over.
MAY = ["setpriv", f"--reuid={NOBODY}", "--clear-groups", "test", "-x", PROGRAM, "-a", "-r", "."]
if os.getuid() == 0 and shutil.which("setpriv") and subprocess.run(MAY).returncode == 0:
    project("project", {"vunit.toml": TOML, "a.vhd": package("a"), "closed/b.vhd": package("b")})
    make(b"c.vhd", "closed/b.vhd")
    os.chmod("project/closed", 0)
    wanted = 3, b"", FAULT + b"vunit_run: closed: list: Permission denied (os error 13)\n"
    expect("a folder that may not be read", wanted, "-f", user=NOBODY)
    os.rename("project/closed", "project/.closed")
    os.remove("project/c.vhd")
    make(b"c.vhd", ".closed/b.vhd")
    wanted = 3, b"", FAULT + b"vunit_run: c.vhd: open: Permission denied (os error 13)\n"
    expect("a link into a folder that may not be entered", wanted, "-f", user=NOBODY)
    project("project", {"vunit.toml": TOML, "a.vhd": package("a"), "listed/b.vhd": package("b")})
    os.chmod("project/listed", 0o744)
    wanted = 3, b"", FAULT + b"vunit_run: listed/b.vhd: look at an entry: Permission denied (os error 13)\n"
    expect("a folder whose entries may not be looked at", wanted, "-f", user=NOBODY)
    os.chmod("project/listed", 0o755)
else:
    print("not tried: what another user may not read")


def random_name(chance):
    """A name of a few bytes, now and then hidden, with letters of two bytes, a control character, or not UTF-8."""
    parts = [b"a", b"b", b"Z", b"0", b"_", b"+", b" ", b"(", b"\xc3\xa4", b"\xe2\x82\xac", b"\n", b"\x1b", b"\\", b"'"]
    name = b"".join(chance.choice(parts) for _ in range(chance.randint(1, 4)))
    if chance.random() < 0.004:
        name += b"\xff"
    if chance.random() < 0.1:
        name = b"." + name
    return name + chance.choice([b".vhd", b".vhd", b".vhd", b".txt", b""])


def random_tree(chance):
    """Files, folders and links by chance below the project."""
    folders = [b""]
    for _ in range(chance.randint(1, 25)):
        path = chance.choice(folders) + random_name(chance)
        if os.path.lexists(os.path.join(b"project", path)):
            continue
        kind = chance.random()
        if kind < 0.25:
            make(path, "folder")
            folders.append(path + b"/")
        elif kind < 0.8:
            make(path, "file")
        else:
            make(path, chance.choice([b"nothing", b".", b"/dev/null", os.path.basename(path)] if kind > 0.97 else [b"/dev/null", b".", os.path.abspath("one").encode()]))


def found(*tests):
    """The paths below the project that find finds by these tests, without what a listing passes over."""
    words = ["find", ".", "-mindepth", "1", "(", "-name", ".*", "-o", "-path", "./vunit_out", ")", "-prune", "-o", *tests, "-print0"]
    # (it complains of links that go in a circle, and finds them nevertheless)
    paths = subprocess.run(words, cwd="project", stdin=subprocess.DEVNULL, capture_output=True).stdout
    return sorted(path[2:] for path in paths.split(b"\0") if path)


def is_utf8(path):
    try:
        path.decode()
        return True
    except UnicodeDecodeError:
        return False


def shown(path):
    """A name that is not UTF-8, in its shown form."""
    return bytes(byte if 32 <= byte < 127 else 63 for byte in path)


counts = {"listed": 0, "not UTF-8": 0, "cannot be followed": 0}
for seed in range(TREES):
    chance = random.Random(seed)
    project("project", {"vunit.toml": TOML, "zz.vhd": ""})
    write(".", {"one": ""})
    random_tree(chance)
    status, out, error = run("-f")
    odd = [path for path in found() if not is_utf8(path)]
    listed = found("(", "-type", "f", "-o", "-type", "l", "!", "-xtype", "d", "!", "-xtype", "c", ")", "-name", "*.vhd")
    broken = [path for path in listed if os.path.islink(os.path.join(b"project", path)) and not os.path.exists(os.path.join(b"project", path))]
    if odd:
        counts["not UTF-8"] += 1
        ends = [shown(os.path.basename(path)) + b": " + ODD for path in odd]
        if (status, out) != (3, b"") or not error.startswith(FAULT) or not any(error.endswith(said) for said in ends):
            fail(f"tree {seed}", f"{odd} are not UTF-8, and it is {status, out, error}")
    elif broken:
        counts["cannot be followed"] += 1
        first = bytes(63 if byte < 32 else byte for byte in broken[0])
        if (status, out) != (3, b"") or not error.startswith(FAULT + b"vunit_run: " + first + b": "):
            fail(f"tree {seed}", f"{broken} cannot be followed, and it is {status, out, error}")
    else:
        counts["listed"] += 1
        wanted = b"".join(b"lib, " + path + b"\n" for path in listed) + b"Listed %d files\n" % len(listed)
        if (status, out) != (0, wanted):
            fail(f"tree {seed}", f"it lists {out}\nand not {wanted}\n{error}")
print(counts)
if min(counts.values()) < 5:
    sys.exit(f"too few trees of a kind: {counts}")
end()
