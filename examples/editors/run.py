"""Hands VUnit's words on to vunit_run, for editor extensions that call run.py: put it beside vunit.toml."""
import os, sys

NOT_KNOWN, WITH_VALUE = ("--no-color", "-u", "--unique-sim"), ("-o", "--output-path", "--log-level")
words, given = [], iter(sys.argv[1:])
for word in given:
    if word in WITH_VALUE:
        next(given, None)
    elif word not in NOT_KNOWN and not word.startswith(("--output-path=", "--log-level=")):
        words.append(word)
os.chdir(os.path.dirname(os.path.abspath(__file__)))
os.execvp("vunit_run", ["vunit_run", *words])
