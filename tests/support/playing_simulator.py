"""A simulator for tests of vunit_configs, which does what its words say. It prints its bench, its cases and the words behind
--configuration=, and passes, unless among its words is one of

    --fails             its last case doesn't pass
    --code=N            it ends with N
    --sleeps=SECONDS    it sleeps before it ends
    --prints=TEXT       it prints this, too
    --kills-parent      it ends what has started it
    --leaves=FILE       it writes a line into this file as it begins, and one as it ends

A word --only=CASE:WORD gives a word to one case alone."""
import os, signal, sys, time

from simulator import passed, read_bench


def words_of(cases, words):
    for word in words:
        if word.startswith("--only="):
            case, _, word = word[len("--only=") :].partition(":")
            if case.encode() not in cases:
                continue
        name, _, value = word.partition("=")
        yield name, value


def leave(path, line):
    with open(path, "a", encoding="ascii") as file:
        file.write(line + "\n")


def main():
    library, bench, _, cases, configuration, results, _ = read_bench(sys.stdin.buffer.read())
    own = dict(words_of(cases, sys.argv[1:]))
    if "--leaves" in own:
        leave(own["--leaves"], "begins")
    named = [word for word in sys.argv[1:] if word.startswith(("--configuration=", "-g"))]
    print(f"{library.decode()}.{bench.decode()}", *(case.decode() for case in cases), *named, own.get("--prints", ""), sep="|")
    sys.stdout.flush()
    if "--kills-parent" in own:
        os.kill(os.getppid(), signal.SIGKILL)
    time.sleep(float(own.get("--sleeps", "0")))
    assert os.path.dirname(results) + b"/" in configuration, (results, configuration)
    text = passed(cases)
    with open(results, "wb") as file:
        file.write(text.replace(b"test_suite_done\n", b"") if "--fails" in own else text)
    if "--leaves" in own:
        leave(own["--leaves"], "ends")
    sys.exit(int(own.get("--code", "1" if "--fails" in own else "0")))


if __name__ == "__main__":
    main()
