"""The parts of a bench request that say what a run has to do, as docs/FORMATS.md has them: its folder, and its configuration."""

from run_data import escaped

RUNS = b"vunit_out/tests/"
PLAIN = b"ABCDEFGHIJKLMNOPQRSTUVWXYZabcdefghijklmnopqrstuvwxyz0123456789_-."


def run_folder(name):
    """The folder of the run of this name."""
    return RUNS + escaped(name, PLAIN)


def split_at(text, mark):
    """The parts of a text between marks of one byte; a mark twice stands for itself, and stays so."""
    parts, at, begin = [], 0, 0
    while (at := text.find(mark, at)) >= 0:
        if text[at + 1 : at + 2] == mark:
            at += 2
            continue
        parts.append(text[begin:at])
        begin = at = at + 1
    return [*parts, text[begin:]]


def pairs_of(configuration):
    """The keys and values of a configuration text."""
    pairs = []
    for pair in split_at(configuration, b","):
        key, *value = split_at(pair, b":")
        key, value = (part.replace(b",,", b",").replace(b"::", b":") for part in (key, b":".join(value)))
        pairs.append((key.strip(b" "), value[1:]))
    return dict(pairs)


def configuration_of(pairs):
    """The configuration text of keys and values."""
    return b",".join(b" : ".join(part.replace(b",", b",,").replace(b":", b"::") for part in pair) for pair in pairs.items())


def enabled_cases(cases):
    """The value for the names of cases."""
    return b",".join(case.replace(b",", b",,") for case in cases)
