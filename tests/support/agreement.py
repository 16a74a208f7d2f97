"""What program_agreement.sh does.

Each project has a few files with packages, entities and benches. Comments say which cases fail in the simulator that is part of
the program. About half of the projects have a fault, so that they are refused. Of each project

- `-l`, `--export-json`, a run with `-x` and a second run name the same tests in the same order;
- the verdicts of all of them are those of the comments, and nothing is compiled by the second run;
- a refused project is refused by all of them with the same words, and no report is written.

SECONDS is how long it goes on, or until there were LEAST_STARTS on a slow machine, but no longer than four times that. WORKERS is
how many projects are tried at once.
"""
import json, multiprocessing, os, random, subprocess, sys, tempfile, time
import xml.etree.ElementTree as xml

from trial import PROGRAM, write

SECONDS = int(os.environ.get("AGREEMENT_SECONDS", "60"))
WORKERS = min(4, os.cpu_count() or 1)
LEAST_STARTS = 5000
NAMES = ["a", "reset works", "x,y", "100 % done", "<&>'", "b", "Gr\u00f6\u00dfe", "c.d", "-", "/", "\\n", "*", "[a]", "z" * 40]
FAULTS = ["foo", "entity e is", "use work.no_such_package.all;\nentity e{0} is end;", 'entity t is end;\nentity t is end;\n', '"']


def bench(chance, name):
    """A bench, its cases and whether they run in one simulation."""
    cases = chance.sample(NAMES, chance.randint(0, 5))
    same = chance.random() < 0.3
    calls = "".join(f'if run("{case}") then null; end if;\n' for case in cases)
    text = "-- vunit: run_all_in_same_sim\n" if same else ""
    text += f"entity {name} is generic (runner_cfg : string); end;\narchitecture a of {name} is begin\nprocess begin\n{calls}end process;\nend;\n"
    return text, cases or ["all"], same


def verdicts(cases, failing, same):
    """The verdict of each case. In one simulation the first that fails ends it."""
    if not same:
        return ["fail" if case in failing else "pass" for case in cases]
    first = next((at for at, case in enumerate(cases) if case in failing), len(cases))
    return ["pass"] * first + ["fail"] * (first < len(cases)) + ["skip"] * (len(cases) - first - 1)


def make(seed):
    """The files of a project, whether it is accepted, and its tests with their verdicts."""
    chance = random.Random(seed)
    library = chance.choice(["lib", "tb_lib"])
    files, tests = {}, []
    for at in range(chance.randint(1, 5)):
        path = f"{chance.choice('ab')}/f{at}.vhd"
        text = f"package p{at} is end;\n" if chance.random() < 0.4 else f"entity e{at} is end;\n"
        if chance.random() < 0.75:
            name = f"tb_{at}"
            more, cases, same = bench(chance, name)
            failing = [case for case in cases if chance.random() < 0.35]
            text += more + "".join(f"-- child: fail {library}.{name}.{case}\n" for case in failing)
            tests.append((path, [(f"{library}.{name}", case, verdict) for case, verdict in zip(cases, verdicts(cases, failing, same))]))
        files[path] = text
    tests = [test for _, found in sorted(tests) for test in found]
    is_accepted = chance.random() < 0.55
    if not is_accepted:
        path = chance.choice(sorted(files))
        files[path] += chance.choice(FAULTS)
    files["vunit.toml"] = f'[[library]]\nname = "{library}"\nfiles = ["**/*.vhd"]\n'
    return files, is_accepted, tests


def run(folder, *words):
    ran = subprocess.run([PROGRAM, *words], cwd=folder, stdin=subprocess.DEVNULL, capture_output=True)
    return ran.returncode, ran.stdout.decode()


def verdict_lines(text):
    """The tests with their verdicts that a run printed, and whether it compiled something."""
    words = ("pass ", "fail ", "skip ")
    before, _, summary = text.partition("==== Summary\n")
    found = [line.split(" ", 1) for line in before.splitlines() if line.startswith(words)]
    return [(name, verdict) for verdict, name in found], "Compiling into" in before, summary


def junit(path):
    found = []
    for case in xml.parse(path).getroot():
        kinds = {child.tag for child in case}
        verdict = "fail" if "failure" in kinds else "skip" if "skipped" in kinds else "pass"
        found.append((case.get("classname") + "." + case.get("name"), verdict))
    return found


def counts_of(tests):
    verdicts = [verdict for *_, verdict in tests]
    total = len(verdicts)
    lines = "".join(f"{kind} {verdicts.count(kind)} of {total}\n" for kind in ("pass", "fail", "skip"))
    return lines + ("All passed!\n" if verdicts.count("pass") == total else "Some failed!\n")


def check(seed, folder):
    """Tries one project. Gives whether it was accepted, whether it had both verdicts, and the fault."""
    files, is_accepted, tests = make(seed)
    write(folder, files)
    full = [(f"{bench}.{case}", verdict) for bench, case, verdict in tests]
    slots = str(1 + seed % 4)
    listed = run(folder, "-l")
    export = run(folder, "--export-json", "e.json")
    first = run(folder, "-x", "r.xml", "-p", slots)
    second = run(folder, "-x", "s.xml", "-p", slots)
    if not is_accepted:
        said = {status_text for status_text in (listed, export, first, second)}
        is_right = len(said) == 1 and listed[0] == 1 and listed[1].startswith("vunit_run: ")
        left = [name for name in ("e.json", "r.xml", "s.xml", "vunit_out") if os.path.exists(os.path.join(folder, name))]
        return False, False, None if is_right and not left else f"refused otherwise: {said}, left are {left}"
    names = "".join(f"{name}\n" for name, _ in full)
    if listed != (0, f"{names}Listed {len(full)} tests\n"):
        return True, False, f"listed is {listed}, and the tests are {full}"
    with open(os.path.join(folder, "e.json"), "rb") as file:
        exported = [test["name"] for test in json.load(file)["tests"]]
    if export != (0, "") or exported != [name for name, _ in full]:
        return True, False, f"exported is {export}, {exported}"
    if not full:
        wanted = 0, "No tests were run!\n"
        is_right = all((status, text.endswith(wanted[1])) == (0, True) for status, text in (first, second))
        return True, False, None if is_right else f"without tests it is {first, second}"
    status = 0 if all(verdict == "pass" for _, verdict in full) else 1
    for ran, report in (first, "r.xml"), (second, "s.xml"):
        lines, compiled, summary = verdict_lines(ran[1])
        if (ran[0], lines, summary) != (status, full, counts_of(tests)):
            return True, False, f"a run is {ran}, and the tests are {full}"
        if junit(os.path.join(folder, report)) != full:
            return True, False, f"JUnit is {junit(os.path.join(folder, report))}, and the tests are {full}"
        if compiled != (ran is first):
            return True, False, f"compiled: {ran}"
    return True, {"pass", "fail"} <= {verdict for _, verdict in full}, None


def goes_on(seconds, starts):
    """Whether a worker goes on after this number of starts and these seconds."""
    return seconds < SECONDS or starts * WORKERS < LEAST_STARTS and seconds < 4 * SECONDS


def work(worker, begun, results):
    """Tries projects until it is time."""
    counts = {"starts": 0, "projects": 0, "accepted": 0, "with both verdicts": 0}
    wrong = []
    seed = worker
    while goes_on(time.monotonic() - begun, counts["starts"]) and len(wrong) < 3:
        with tempfile.TemporaryDirectory(dir=".") as folder:
            accepted, both, said = check(seed, folder)
        counts["starts"] += 4
        counts["projects"] += 1
        counts["accepted"] += accepted
        counts["with both verdicts"] += both
        if said:
            wrong.append(f"project {seed}: {said}")
        seed += WORKERS
    results.put((counts, wrong))


if __name__ == "__main__":
    results = multiprocessing.Queue()
    begun = time.monotonic()
    workers = [multiprocessing.Process(target=work, args=(worker, begun, results)) for worker in range(WORKERS)]
    for worker in workers:
        worker.start()
    found = [results.get() for _ in workers]
    for worker in workers:
        worker.join()
    total = {name: sum(counts[name] for counts, _ in found) for name in found[0][0]}
    print(f"tried: {total}")
    wrong = [said for _, some in found for said in some]
    for said in wrong[:5]:
        print(said[:3000])
    if wrong:
        sys.exit(1)
    if total["accepted"] * 5 < total["projects"] * 2 or total["with both verdicts"] * 5 < total["accepted"] * 2:
        sys.exit("too few projects are accepted, or too few of these have both verdicts")
    if total["starts"] < LEAST_STARTS <= 100 * SECONDS:
        print(f"not tried: {LEAST_STARTS} starts, as this machine was too slow")
