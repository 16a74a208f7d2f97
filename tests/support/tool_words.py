"""Compares how the tools read a command line with how the program does: lines made from seeds, and each line that says the same in
other words. Works in the present folder."""

import os, random, shutil, subprocess, sys

sys.path.insert(0, os.path.join(os.environ["TOP"], "wrappers"))
from runner_words import RunnerWords, WrongWords

PROGRAM = os.environ["VUNIT_RUN"]
PARTS = ["-l", "-p4", "-p", "4", "-p=4", "--num-threads=4", "--num-threads", "-lp", "-lfm", "--list", "-x", "o.xml", "-xo", "-x=o",
         "--xunit-xml", "--xunit-xml=o", "-", "*reset", "-v", "-q", "-vq", "-k", "--fail-fast", "--clean", "--exit-0", "--exit-0=1",
         "--lis", "-z", "65", "0", "-1", "+3", "", "--list=", "--num-threads=", "-kx", "-p=", "--minimal"]
shutil.copytree(os.path.join(os.environ["TOP"], "examples/counter"), "project")


def said(words):
    ran = subprocess.run([PROGRAM, *words], cwd="project", stdin=subprocess.DEVNULL, capture_output=True)
    return ran.returncode, ran.stdout


seeded, taken = random.Random(55), 0
for count in range(300):
    words = ["-l", *(seeded.choice(PARTS) for _ in range(seeded.randint(0, 4)))]
    if count % 5 == 0:
        words.insert(seeded.randrange(1, len(words) + 1), "--")
    wanted = said(words)
    try:
        read = RunnerWords(words)
    except WrongWords as wrong:
        # (2 is an invalid command line, and 5 more children than are allowed)
        assert wanted[0] in (2, 5), f"{words}: {wrong}, and the program says {wanted}"
        continue
    assert wanted[0] == 0 and read.mode() == "list", f"{words} are read, and the program says {wanted}"
    assert said([*read.words(), "--", *read.patterns]) == wanted, f"{words} are other words than {read.words()}"
    taken += 1
assert taken >= 100, f"only {taken} lines were taken"
