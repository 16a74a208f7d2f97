"""Looks at pages of wrappers/vunit_report in headless Chromium. Works in the present folder."""

import os, re, subprocess
from html.parser import HTMLParser
from urllib.parse import quote

from report_data import REPORT, make, select

# What would change the title, or say something in the console, were it executed; and what would be fetched.
HOSTILE = ("</pre><script>document.title = 'executed'; console.log('executed')</script><img src=x onerror=\"document.title='executed'\">"
           "<svg onload=\"document.title='executed'\"><a href=\"javascript:document.title='executed'\">x</a>"
           "<style>body { display: none }</style><link rel=stylesheet href=http://127.0.0.1:9/x.css>' \" & \x1b[31m\n")


class Page(HTMLParser):
    """What is in a page: its rows with their classes and texts, and what it would fetch or run."""

    def __init__(self, text):
        super().__init__()
        self.rows, self.text, self.shown, self.title, self.inside = [], "", "", "", None
        self.scripts = 0
        self.feed(text)

    def handle_starttag(self, tag, attributes):
        attributes = dict(attributes)
        self.scripts += tag == "script"
        assert not {"src", "href", "onerror", "onload"} & attributes.keys(), (tag, attributes)
        if tag == "tr" and "case" in (attributes.get("class") or "").split():
            self.rows.append([attributes["data-verdict"], "hidden" in attributes["class"].split(), ""])
        self.inside = "shown" if attributes.get("id") == "shown" else "title" if tag == "title" else "row" if tag in ("td", "tr") else None

    def handle_endtag(self, tag):
        self.inside = None

    def handle_data(self, data):
        if self.inside == "shown":
            self.shown += data
        elif self.inside == "title":
            self.title += data
        elif self.inside == "row" and self.rows:
            self.rows[-1][2] += data
        self.text += data


def look(fragment=""):
    """The page after its script has run, and the lines of Chromium's console."""
    ran = subprocess.run(["chromium", "--headless", "--no-sandbox", "--disable-gpu", "--disable-dev-shm-usage",
                          "--user-data-dir=" + os.path.abspath("profile"), "--enable-logging=stderr", "--v=0", "--dump-dom",
                          "file://" + os.path.abspath("page.html") + (f"#{quote(fragment)}" if fragment else "")],
                         capture_output=True, text=True, timeout=120)
    assert ran.returncode == 0, ran
    said = [line for line in ran.stderr.split("\n") if "CONSOLE" in line]
    assert not said, said
    return Page(ran.stdout)


names = [f"lib.bench_{number % 3}.case {number}" for number in range(60)] + ["lib.bench_0.<b>&amp;", "lib.never.ran"]
select(*names)
for number, name in enumerate(names[:-1]):
    verdict = "fail" if number % 10 == 0 else "skip" if number % 10 == 1 else "pass"
    make(name, {name.split(".", 2)[2]: verdict}, seconds=number / 10, code=0 if verdict == "pass" else 1, error=HOSTILE, output=HOSTILE.encode() * 3)
subprocess.run([REPORT, "--html", "page.html", "out.xml"], check=True)
# By hand: of 61 that ran those with 0, 10 .. 60 failed, and those with 1, 11 .. 51 were skipped; one never ran, and so the run was cut.
with open("page.html") as file:
    text = file.read()
assert text.count("<script>") == 1 and "http" not in text.replace("http-equiv", "").replace("http://127.0.0.1:9", "")
page = look()
counts = {verdict: sum(row[0] == verdict for row in page.rows) for verdict in ("pass", "fail", "skip", "error")}
assert counts == {"pass": 48, "fail": 7, "skip": 6, "error": 2} and not any(row[1] for row in page.rows), counts
assert page.shown == "63 of 63 shown" and page.title == "Tests" and page.scripts == 1, (page.shown, page.title)
assert "63 tests" in page.text and "fail 7, error 2, skip 6" in page.text
assert HOSTILE.strip().replace("\x1b", "\ufffd") in page.text, page.text[-3_000:]
# (the slowest are the ones that were started last)
slowest = page.text[page.text.index("Slowest") :].split("Tests")[0]
assert re.findall(r"(\d\.\d{3}) s", slowest)[:3] == ["6.000", "5.900", "5.800"] and slowest.count(" s") >= 20, slowest
for wanted, shown in [("bench_1.", 20), ("BENCH_1.", 20), ("fail", 7), ("case 59", 1), ("<b>&amp;", 1), ("no such case", 0), ("never", 1)]:
    page = look(wanted)
    assert page.shown == f"{shown} of 63 shown" and sum(not row[1] for row in page.rows) == shown, (wanted, page.shown)
assert page.rows[61][1] is False and "lib.never.ran" in page.rows[61][2], page.rows[61]
