"""The two forms of a report: JUnit XML by the schema of Jenkins, and a page in HTML that needs nothing beside it."""

import base64, hashlib, os, re, time

# Bytes of an output that are shown, the last ones, and of all outputs of a report.
OUTPUT_LIMIT, ALL_LIMIT = 65_536, 16_777_216
SLOWEST = 20
# What no XML text may have. (A carriage return would be read as a line feed.)
NO_TEXT = re.compile("[^\t\n\x20-\ud7ff\ue000-\ufffd\U00010000-\U0010ffff]")
ESCAPES = {"&": "&amp;", "<": "&lt;", ">": "&gt;", '"': "&quot;", "'": "&apos;"}
COUNTED = ("pass", "fail", "error", "skip")


def clean(text):
    """A text with U+FFFD for each character that no XML text may have."""
    return NO_TEXT.sub("\ufffd", text)


def as_text(text):
    return clean(text).translate(ESCAPE)


def as_attribute(text):
    return as_text(text).replace("\n", "&#10;").replace("\t", "&#9;")


ESCAPE = str.maketrans(ESCAPES)


class Case:
    """A test and its verdict."""

    def __init__(self, class_name, name):
        self.class_name, self.name, self.verdict, self.message = class_name, name, "error", ""
        self.seconds, self.start, self.folder, self.command = None, None, None, []

    def take(self, data, verdict):
        """Takes what a simulator has left of it."""
        self.verdict, self.seconds, self.start, self.folder = verdict, data.seconds, data.start, data.folder
        self.command = [word.decode(errors="replace") for word in data.command]
        if verdict == "pass" and data.is_restored:
            self.message = "from the cache"
        if verdict == "fail":
            self.message = data.error.decode(errors="replace").strip()


class Outputs:
    """What tests have printed, within limits: that of a simulation of several tests is with the first that didn't pass."""

    def __init__(self, cases, has_all):
        self.left, self.of = ALL_LIMIT, {}
        wanted = [case for case in cases if case.folder and case.verdict != "pass"]
        wanted += [case for case in cases if case.folder and case.verdict == "pass"] if has_all else []
        seen = set()
        for case in wanted:
            if case.folder not in seen:
                seen.add(case.folder)
                self.of[case] = self.read(os.path.join(case.folder, b"output.txt"))

    def read(self, path):
        name = path.decode(errors="replace")
        if not os.path.isfile(path):
            return f"(there is no {name})\n"
        try:
            with open(path, "rb") as file:
                size = os.fstat(file.fileno()).st_size
                shown = min(size, OUTPUT_LIMIT)
                if shown > self.left:
                    return f"(the output is in {name})\n"
                file.seek(size - shown)
                text = file.read(shown).decode(errors="replace")
        except OSError as fault:
            return f"({name}: {fault.strerror})\n"
        self.left -= shown
        return text if shown == size else f"(the last {shown} bytes of {size}, all in {name})\n{text}"


def seconds_of(cases):
    """The seconds of a run, from its first start on, and when that was."""
    times = [(case.start, case.start + case.seconds) for case in cases if case.start is not None]
    return (max(end for _, end in times) - min(start for start, _ in times), min(times)[0]) if times else (0, None)


def count(cases, verdict):
    return sum(case.verdict == verdict for case in cases)


def in_xml(case, output):
    time_of = f' time="{case.seconds:.3f}"' if case.seconds is not None else ""
    head = f'  <testcase classname="{as_attribute(case.class_name)}" name="{as_attribute(case.name)}"{time_of}'
    inner = ""
    if case.verdict == "skip":
        inner += "    <skipped/>\n"
    elif case.verdict != "pass":
        kind = "failure" if case.verdict == "fail" else "error"
        inner += f'    <{kind} message="{as_attribute(case.message or "Failed")}"/>\n'
    if case.verdict == "pass" and case.message and not output:
        output = f"({case.message})\n"
    if output:
        inner += f"    <system-out>{as_text(output)}</system-out>\n"
    return f"{head}>\n{inner}  </testcase>\n" if inner else f"{head}/>\n"


def write_xml(path, cases, outputs):
    seconds, start = seconds_of(cases)
    stamp = time.strftime(' timestamp="%Y-%m-%dT%H:%M:%S"', time.gmtime(start)) if start is not None else ""
    head = (f'<testsuite name="testsuite" tests="{len(cases)}" failures="{count(cases, "fail")}"'
            f' skipped="{count(cases, "skip")}" errors="{count(cases, "error")}" time="{seconds:.3f}"{stamp}>\n')
    parts = ['<?xml version="1.0" encoding="utf-8"?>\n', head, *(in_xml(case, outputs.of.get(case)) for case in cases),
             "</testsuite>\n"]
    replace_file(path, "".join(parts))


def replace_file(path, text):
    """Writes a file whole, or does not change it."""
    data, part = text.encode(), f"{path}.part"
    if os.path.exists(path) and not os.path.isfile(path):
        # (a device or a pipe is written in place)
        part = path
    try:
        with open(part, "wb") as file:
            file.write(data)
        if part != path:
            os.replace(part, path)
    except OSError:
        if part != path and os.path.exists(part):
            os.unlink(part)
        raise


STYLE = """
body { font: 15px/1.4 sans-serif; margin: 1.5em; color: #222; background: #fff }
table { border-collapse: collapse } td, th { padding: .2em .8em .2em 0; text-align: left; vertical-align: top }
td.time { text-align: right; white-space: nowrap } .pass { color: #176b2c } .fail, .error { color: #a40e26 } .skip { color: #6a6a6a }
pre { background: #f4f4f4; padding: .6em; overflow-x: auto; max-height: 40em } .hidden { display: none }
@media (prefers-color-scheme: dark) { body { color: #ddd; background: #1b1b1b } pre { background: #2a2a2a }
.pass { color: #6fce87 } .fail, .error { color: #ff8d9b } .skip { color: #aaa } }
"""
# The filter is a text that the name has to have, or a verdict. It may stand behind the # of the address.
SCRIPT = """
const rows = Array.from(document.querySelectorAll("tr.case"));
const box = document.getElementById("filter"), count = document.getElementById("shown");
function show() {
  const wanted = box.value.toLowerCase();
  let shown = 0;
  for (const row of rows) {
    const fits = row.dataset.verdict === wanted || row.cells[1].textContent.toLowerCase().includes(wanted);
    row.classList.toggle("hidden", !fits);
    shown += fits ? 1 : 0;
  }
  count.textContent = shown + " of " + rows.length + " shown";
}
if (location.hash.length > 1) box.value = decodeURIComponent(location.hash.slice(1));
box.addEventListener("input", show);
show();
"""


def source_of(text):
    """By what the page's policy knows a text that it may use. Nothing else runs, whatever a log has."""
    return "'sha256-" + base64.b64encode(hashlib.sha256(text.encode()).digest()).decode() + "'"


def row(case):
    seconds = f"{case.seconds:.3f} s" if case.seconds is not None else ""
    return (f'<tr class="case" data-verdict="{case.verdict}"><td class="{case.verdict}">{case.verdict}</td>'
            f"<td>{as_text(case.class_name)}.{as_text(case.name)}</td><td class=\"time\">{seconds}</td>"
            f"<td>{as_text(case.message)}</td></tr>\n")


def failure(case, output):
    command = f"<pre>{as_text(' '.join(case.command))}</pre>\n" if case.command else ""
    return (f'<h3 class="{case.verdict}">{as_text(case.class_name)}.{as_text(case.name)}</h3>\n<p>{as_text(case.message)}</p>\n'
            + (f"<pre>{as_text(output)}</pre>\n" if output else "")
            + (f"<details><summary>command</summary>{command}</details>\n" if command else ""))


def write_page(path, cases, outputs):
    seconds, start = seconds_of(cases)
    when = time.strftime("%Y-%m-%d %H:%M:%S UTC", time.gmtime(start)) if start is not None else "no test was started"
    slowest = sorted((case for case in cases if case.seconds is not None), key=lambda case: -case.seconds)[:SLOWEST]
    policy = f"default-src 'none'; style-src {source_of(STYLE)}; script-src {source_of(SCRIPT)}"
    counts = ", ".join(f'<span class="{verdict}">{verdict} {count(cases, verdict)}</span>' for verdict in COUNTED)
    parts = [
        '<!DOCTYPE html>\n<html lang="en">\n<head>\n<meta charset="utf-8">\n',
        f'<meta http-equiv="Content-Security-Policy" content="{policy}">\n<title>Tests</title>\n<style>{STYLE}</style>\n',
        "</head>\n<body>\n",
        f"<h1>{len(cases)} tests</h1>\n<p>{counts}; {seconds:.3f} s, {when}</p>\n",
        '<p><input id="filter" placeholder="part of a name, or a verdict" size="40"> <span id="shown"></span></p>\n',
        "<table>\n<tr><th></th><th>test</th><th>time</th><th></th></tr>\n", *map(row, cases), "</table>\n<h2>Not passed</h2>\n",
        *(failure(case, outputs.of.get(case)) for case in cases if case.verdict in ("fail", "error")),
        "<h2>Slowest</h2>\n<table>\n",
        *(f'<tr><td class="time">{case.seconds:.3f} s</td><td>{as_text(case.class_name)}.{as_text(case.name)}</td></tr>\n'
          for case in slowest), f"</table>\n<script>{SCRIPT}</script>\n</body>\n</html>\n"]
    replace_file(path, "".join(parts))
