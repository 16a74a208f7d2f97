"""Reports of wrappers/vunit_report over data that are made here: missing, half written and hostile ones, outputs of any bytes and
sizes, many cases, and the time that they take. Works in the present folder."""

import os, random, subprocess, time

from junit_schema import is_red, read_checked, rows_of
from report_data import REPORT, make, select

def report(*words, status=0, said=""):
    if os.path.exists("out.xml"):
        os.remove("out.xml")
    ran = subprocess.run([REPORT, *words, "out.xml"], capture_output=True, text=True)
    assert (ran.returncode, ran.stderr) == (status, said) and not ran.stdout, ran
    return read_checked("out.xml") if status == 0 else None


def begin(name):
    os.makedirs(name)
    os.chdir(name)


def finish():
    os.chdir("..")


begin("kinds")
select("lib.t.a", "lib.t.b", "lib.t.c", "lib.same.x", "lib.same.y", "lib.same.z", "lib.whole.all", "lib.\\a.b\\.c.d")
make("lib.t.a", {"a": "pass"}, seconds=1.25, output=b"never shown\n")
make("lib.t.b", {"b": "fail"}, start=1_700_000_010.0, seconds=0.0004, code=1, error="tb.vhd:3: <\"it\"> & isn't", output=b"why\n")
make("lib.t.c", {"c": "skip"}, code=1)
make("lib.same", {"x": "pass", "y": "fail", "z": "skip"}, seconds=3, code=1, error="tb.vhd:9: y", output=b"x and y\n")
make("lib.whole", {"all": "pass"})
make("lib.\\a.b\\.c.d", {"c.d": "pass"})
root = report()
assert root.get("time") == "10.000" and root.get("timestamp") == "2023-11-14T22:13:20", root.attrib
assert rows_of(root) == [("lib.t", "a", "passed"), ("lib.t", "b", "failure"), ("lib.t", "c", "skipped"), ("lib.same", "x", "passed"),
                         ("lib.same", "y", "failure"), ("lib.same", "z", "skipped"), ("lib.whole", "all", "passed"),
                         ("lib.\\a.b\\", "c.d", "passed")], rows_of(root)
cases = list(root.iter("testcase"))
# (three seconds of a simulation in which two cases were started)
assert [case.get("time") for case in cases] == ["1.250", "0.000", "0.500", "1.500", "1.500", "1.500", "0.500", "0.500"]
assert cases[1].find("failure").get("message") == "tb.vhd:3: <\"it\"> & isn't"
assert [case.findtext("system-out") for case in cases] == [None, "why\n", None, None, "x and y\n", None, None, None]
assert report("--all-output")[0].findtext("system-out") == "never shown\n"
finish()

begin("runs")
# Of several runs: the newest, or the named one; folders of others never come in. (The times of files say which is newest.)
select("lib.t.a", "lib.t.b")
old, new = make("lib.t.a", {"a": "pass"}, run="old"), make("lib.t.b", {"b": "pass"}, run="new")
now = time.time() + 10
os.utime(f"{old}/run.txt", (now, now))
os.utime(f"{new}/run.txt", (now + 1, now + 1))
CUT = ("vunit_run", "run was cut off after 1 of 2 tests", "error")
assert rows_of(report()) == [("lib.t", "a", "error"), ("lib.t", "b", "passed"), CUT]
assert rows_of(report("--run", "old")) == rows_of(report("--run=old")) == [("lib.t", "a", "passed"), ("lib.t", "b", "error"), CUT]
# One that ended before the tests were selected isn't theirs.
for folder in (old, new):
    os.utime(f"{folder}/run.txt", (now - 100, now - 100))
assert rows_of(report()) == [("lib.t", "a", "error"), ("lib.t", "b", "error"), ("vunit_run", "run was cut off after 0 of 2 tests", "error")]
finish()

# An -x that is newer than the data counts, and an older one doesn't; a case without a verdict there gets none.
begin("xunit")
select("lib.t.a", "lib.t.b")
folder = make("lib.t.a", {"a": "pass"})
with open("x.xml", "w") as file:
    file.write('<testsuite><testcase classname="lib.t" name="a"><failure message="Failed"/></testcase>'
               '<testcase classname="lib.t" name="b"><skipped/></testcase></testsuite>')
now = time.time() + 10
os.utime("x.xml", (now, now))
assert rows_of(report("--xunit", "x.xml")) == [("lib.t", "a", "failure"), ("lib.t", "b", "skipped")]
os.utime(f"{folder}/run.txt", (now + 1, now + 1))
CUT = ("vunit_run", "run was cut off after 1 of 2 tests", "error")
assert rows_of(report("--xunit", "x.xml")) == [("lib.t", "a", "passed"), ("lib.t", "b", "error"), CUT]
for text in ("", "<testsuite>", "x" * 100):
    with open("x.xml", "w") as file:
        file.write(text)
    os.utime("x.xml", (now + 2, now + 2))
    assert rows_of(report("--xunit", "x.xml")) == [("lib.t", "a", "passed"), ("lib.t", "b", "error"), CUT]
with open("x.xml", "w") as file:
    file.write('<testsuite><testcase classname="lib.t" name="a"><error message="?"/></testcase></testsuite>')
os.utime("x.xml", (now + 2, now + 2))
assert rows_of(report("--xunit", "x.xml")) == [("lib.t", "a", "error"), ("lib.t", "b", "error"),
                                               ("vunit_run", "run was cut off after 0 of 2 tests", "error")]
assert is_red(report("--xunit", "nowhere.xml"))
finish()

# Data that aren't whole: cut at each byte, with wrong values, links, folders, pipes.
begin("half")
select("lib.t.a")
folder = make("lib.t.a", {"a": "pass"})
with open(f"{folder}/run.txt", "rb") as file:
    whole = file.read()
assert not is_red(report())
wrong = [whole[:length] for length in random.Random(54).sample(range(len(whole)), 20)]
wrong += [whole.replace(b"end 1", b"end x"), whole.replace(b"data 1", b"data 2"), whole.replace(b"pass", b"fine"), whole + b"x",
          whole.replace(b"case pass a\n", b""), b"\xff" * 100, whole.replace(b"run one", b"ran one")]
for data in wrong:
    with open(f"{folder}/run.txt", "wb") as file:
        file.write(data)
    assert is_red(report("--run", "one")) and is_red(report()), data
os.remove(f"{folder}/run.txt")
for make_it, remove in ((os.mkdir, os.rmdir), (os.mkfifo, os.unlink), (lambda name: os.symlink("nowhere", name), os.unlink),
                        (lambda name: None, lambda name: None)):
    make_it(f"{folder}/run.txt")
    assert rows_of(report()) == [("lib.t", "a", "error"), ("vunit_run", "run was cut off after 0 of 1 tests", "error")]
    remove(f"{folder}/run.txt")
# An invalid output.
folder = make("lib.t.b", {"b": "fail"}, code=1)
select("lib.t.b")
os.unlink(f"{folder}/output.txt")
os.mkfifo(f"{folder}/output.txt")
assert report("--run", "one")[0].findtext("system-out") == f"(there is no {folder}/output.txt)\n"
finish()

# An invalid export, and wrong words.
begin("words")
USAGE = "usage: vunit_report [--export FILE] [--run ID] [--xunit FILE] [--html FILE] [--all-output] FILE\n"
report(status=2, said="vunit_report: vunit_out/selected.json: No such file or directory: write it before the run, by vunit_run "
                      "--export-json vunit_out/selected.json and the run's patterns\n")
for text in ("", "{}", "[]", '{"tests": [{"name": 3}]}', '{"tests": [{"name": "a.b"}]}', "\x00"):
    with open("e.json", "w") as file:
        file.write(text)
    report("--export", "e.json", status=2, said="vunit_report: e.json isn't an export of vunit_run\n")
report("--frob", status=2, said=f"vunit_report: what is '--frob'? {USAGE}")
report("--run=", status=2, said="vunit_report: --run takes a value\n")
report("other.xml", status=2, said=f"vunit_report: what is 'out.xml'? {USAGE}")
select("lib.t.a")
ran = subprocess.run([REPORT, "no/out.xml"], capture_output=True, text=True)
assert (ran.returncode, ran.stderr) == (2, "vunit_report: no/out.xml.part: No such file or directory\n"), ran
finish()

# Outputs of any bytes are well-formed, and long ones are cut within their limits.
begin("outputs")
chance = random.Random(54)
outputs = [bytes(range(256)) * 3, "]]> <b>&amp; \ufffe\uffff \U0001f600".encode(), b"\xed\xa0\x80\xf4\x90\x80\x80", b"",
           *(chance.randbytes(2_000) for _ in range(40)), b"first\n" + b"x" * 200_000 + b"last\n"]
names = [f"lib.t.c{number}" for number in range(len(outputs))]
select(*names)
for name, output in zip(names, outputs):
    make(name, {name.split(".")[2]: "fail"}, code=1, error="\x01\x1b[31m" + "\n</script>", output=output)
shown = [case.findtext("system-out") for case in report("--html", "page.html").iter("testcase")]
last = f"(the last 65536 bytes of {len(outputs[-1])}, all in vunit_out/tests/lib.t.c{len(outputs) - 1}/output.txt)\n"
assert shown[-1] == last + "x" * (65_536 - 5) + "last\n" and shown[3] in (None, ""), shown[-1][:200]
assert shown[1] == "]]> <b>&amp; \ufffd\ufffd \U0001f600"
finish()

begin("many")
# 300 outputs of 64 KB: as many as fit into 16 MB, and the others by their paths.
names = [f"lib.t.c{number}" for number in range(300)]
select(*names)
for name in names:
    make(name, {name.split(".")[2]: "fail"}, code=1, output=b"y" * 65_536)
shown = [case.findtext("system-out") for case in report().iter("testcase")]
assert sum(text == "y" * 65_536 for text in shown) == 256, len(shown)
assert shown[256:] == [f"(the output is in vunit_out/tests/lib.t.c{number}/output.txt)\n" for number in range(256, 300)]
finish()

# 4,096 cases take at most two seconds, by the processor, since others may run; and 65,536 of one simulation are reported.
begin("long")
names = [f"lib.t.c{number}" for number in range(4_096)]
select(*names)
for number, name in enumerate(names):
    make(name, {name.split(".")[2]: "fail" if number % 16 == 0 else "pass"}, code=0, output=b"a line of a log\n" * 100)
before = os.times()
root = report("--html", "page.html")
after = os.times()
used = after.children_user + after.children_system - before.children_user - before.children_system
print(f"a report over 4,096 cases takes {used:.2f} s of the processor")
assert used <= 2 and len(rows_of(root)) == 4_096 and root.get("failures") == "256", used
finish()
begin("longest")
names = [f"case {number}" for number in range(65_536)]
select(*(f"lib.t.{name}" for name in names))
make("lib.t", dict.fromkeys(names, "pass"))
root = report("--html", "page.html")
assert not is_red(root) and len(rows_of(root)) == 65_536
finish()
