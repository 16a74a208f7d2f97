"""What a simulator leaves of a run for reports: the file `run.txt` in the folder of the run, as docs/FORMATS.md has it.

    vunit_run_data 1
    run ID
    start SECONDS
    end SECONDS
    code NUMBER
    command WORD ..
    case VERDICT NAME
    error TEXT
    from the cache      of a run that was restored, and took no time
    whole

A byte that isn't visible, and `=`, is written as `=` and two digits. The verdicts are the ones that the runner finds by the
same results and the same code.
"""

import quick_os as os

NAME, FORM = b"run.txt", b"vunit_run_data 1"
PASSED, FAILED, SKIPPED = b"pass", b"fail", b"skip"
RESULTS_LIMIT = 1_048_576
HEX = b"0123456789abcdef"
PLAIN = bytes(byte for byte in range(33, 127) if byte != ord("="))
RESTORED = b"from the cache"
# The name of the case of a bench without cases.
WHOLE_BENCH = b"all"


def escaped(data, plain=PLAIN):
    """These bytes with `=` and two digits for each that isn't plain."""
    return b"".join([bytes((byte,)) if byte in plain else b"=%02x" % byte for byte in data])


def unescaped(word):
    first, *rest = word.split(b"=")
    return first + b"".join([bytes((int(part[:2], 16),)) + part[2:] if len(part) >= 2 and not part[:2].strip(HEX)
                             else b"=" + part for part in rest])


def lines_of(results):
    """The lines of a results file, each once, in order; None if the file is missing, or longer than the runner takes."""
    # (opening a pipe would wait)
    if not os.path.isfile(results) or os.stat(results).st_size > RESULTS_LIMIT:
        return None
    with open(results, "rb") as file:
        lines = file.read(RESULTS_LIMIT).split(b"\n")
    return dict.fromkeys(line[:-1] if line.endswith(b"\r") else line for line in lines)


def verdicts_of(cases, results, code):
    """Each case with its verdict, by the names of the cases of a simulation, its results and its code."""
    lines = lines_of(results)
    if lines is None:
        return [(case, FAILED) for case in cases or [WHOLE_BENCH]]
    last = PASSED if b"test_suite_done" in lines and code == 0 else FAILED
    if not cases:
        return [(WHOLE_BENCH, last)]
    known = set(cases)
    started = [line[11:] for line in lines if line.startswith(b"test_start:") and line[11:] in known]
    verdicts = dict.fromkeys(cases, SKIPPED)
    verdicts.update((case, PASSED) for case in started)
    if started:
        verdicts[started[-1]] = last
    return list(verdicts.items())


def write_data(folder, run, times, code, command, verdicts, error, is_restored=False):
    """Leaves the data of a run. (A reader passes over what isn't whole.)"""
    lines = [FORM, b"run " + escaped(run), *(b"%s %.3f" % pair for pair in zip((b"start", b"end"), times)), b"code %d" % code,
             b" ".join([b"command", *map(escaped, command)]),
             *(b"case %s %s" % (verdict, escaped(case)) for case, verdict in verdicts), b"error " + escaped(error), *([RESTORED] if is_restored else []), b"whole\n"]
    with open(os.path.join(folder, NAME), "wb") as file:
        file.write(b"\n".join(lines))


class RunData:
    """The data of one run."""

    def __init__(self, folder, text, left):
        """`left` is when it was left, by the clock of this machine."""
        self.left = left
        head, *lines = text.split(b"\n")
        if head != FORM or lines[-2:] != [b"whole", b""]:
            raise ValueError("it isn't whole")
        pairs = [line.partition(b" ")[::2] for line in lines[:-2]]
        values = dict(pairs)
        self.folder, self.run, self.error = folder, unescaped(values[b"run"]), unescaped(values[b"error"])
        self.start, self.end, self.code = float(values[b"start"]), float(values[b"end"]), int(values[b"code"])
        self.is_restored = RESTORED in lines
        self.command = [unescaped(word) for word in values[b"command"].split(b" ")]
        cases = [value.partition(b" ")[::2] for key, value in pairs if key == b"case"]
        self.verdicts = {unescaped(name): verdict for verdict, name in cases}
        if not {*self.verdicts.values()} <= {PASSED, FAILED, SKIPPED}:
            raise ValueError("a verdict is none")
        started = sum(verdict != SKIPPED for verdict in self.verdicts.values())
        self.seconds = max(0.0, self.end - self.start) / max(1, started)


def read_data(folder):
    """The data in a folder, or None if they are missing or not whole."""
    name = os.path.join(folder, NAME)
    try:
        # (opening a pipe would wait)
        if not os.path.isfile(name):
            return None
        with open(name, "rb") as file:
            return RunData(folder, file.read(), os.stat(name).st_mtime)
    except (OSError, ValueError, KeyError):
        return None
