"""Runs each check of wrappers/vunit_lib once where it passes and once where it fails, and compares what the log says of it
with texts by hand. Works in the present folder."""

import os, re
from bench_requests import Run, build
from ghdl_check_texts import BENCH, EQUAL, OTHERS

tmp = os.path.abspath("tmp")
os.mkdir(tmp)
os.environ["TMPDIR"] = tmp

rows = []
for passing, failing, got, wrong, wanted in EQUAL:
    rows.append((f"check_equal({passing});", f"check - PASS - Equality check passed - Got {got}."))
    rows.append((f"check_equal({failing});", f"check - ERROR - Equality check failed - Got {wrong}. Expected {wanted}."))
    rows.append((f'check_equal({failing}, "mine", warning);', f"check - WARNING - mine - Got {wrong}. Expected {wanted}."))
for passing, failing, name in OTHERS:
    alone = "_passed" in passing
    for statement, verb, level in [(passing, "passed", "PASS"), (failing, "failed", "ERROR")]:
        rows.append((statement % "" + ";", f"check - {level} - {name} {verb}"))
        for words, said in [('"mine"', "mine"), ('result("of mine")', f"{name} {verb} of mine")]:
            rows.append((statement % (f"({words})" if alone else f", {words}") + ";", f"check - {level} - {said}"))

# Loggers: the shown lines, and the counts.
rows += [
    ('info("a");', "default - INFO - a"),
    ('debug("never seen");', None),
    ('trace("never seen");', None),
    ('pass("never seen");', None),
    ('warning("a");', "default - WARNING - a"),
    ('error("a");', "default - ERROR - a"),
    ('failure("a");', "default - FAILURE - a"),
    ('log("a");', "default - INFO - a"),
    ('log("a", warning);', "default - WARNING - a"),
    ('warning_if(five = 5, "a");', "default - WARNING - a"),
    ('warning_if(five = 4, "never seen");', None),
    ('error_if(five = 5, "a");', "default - ERROR - a"),
    ('failure_if(five = 5, "a");', "default - FAILURE - a"),
    ('show(display_handler, debug); debug("a"); hide(display_handler, debug); debug("never seen");', "default - DEBUG - a"),
    ('show(get_logger("own"), display_handler, (debug, trace)); trace(get_logger("own"), "a"); trace("never seen");',
     "own - TRACE - a"),
    ('info(get_logger("part", get_logger("own")), "a");', "own:part - INFO - a"),
    ('hide(get_logger("own"), display_handler, info); info(get_logger("own"), "never seen");', None),
    ('hide_all(display_handler); error("never seen"); show_all(display_handler); pass("a");', "default - PASS - a"),
    ('hide_all(get_logger("own"), display_handler); error(get_logger("own"), "never seen");', None),
    ('show_all(get_logger("own"), display_handler); trace(get_logger("own"), "a");', "own - TRACE - a"),
    ('info(to_string(get_log_count(get_logger("own"), trace)));', "default - INFO - 2"),
    ('info(to_string(get_log_count(get_logger("own"), error)));', "default - INFO - 1"),
    ('info(to_string(get_log_count(get_logger("mute"), error)));', "default - INFO - 0"),
    ('info(get_name(get_logger("own")) & running_test_case & active_test_case);', "default - INFO - own"),
    ('for n in 1 to 40 loop info(get_logger("logger " & to_string(n)), "a"); end loop;', None),
    ('info(to_string(get_log_count(get_logger("logger 1"), info)));', "default - INFO - 1"),
]


def run(statements, words=()):
    built = build([(b"tb_lib", b"tb.vhd", (BENCH % "\n".join(statements)).encode())])
    run = Run(built, b"tb_lib", b"tb", b"sim", [])
    run.start(words)
    with open(run.folder + b"output.txt", encoding="latin-1") as file:
        lines = file.read().splitlines()
    assert not os.listdir(tmp), os.listdir(tmp)
    return run.verdicts(), [re.sub(r"^0 fs - ", "", line) for line in lines]


# All that ends nothing in one bench; a mark before each row tells its lines apart. The errors in the log end it at last.
together = [row for row in rows if "failure" not in row[0]]
statements = [f'    info(get_logger("mark"), "");\n    {statement}' for statement, _ in together]
verdict, lines = run(['    set_stop_level(failure);\n    show(get_logger("check"), display_handler, pass);', *statements,
                      '    info(get_logger("mark"), "");'])
marks = [number for number, line in enumerate(lines) if line == "mark - INFO - "]
for (statement, wanted), first, last in zip(together, marks, marks[1:]):
    got = [line for line in lines[first + 1 : last] if not line.startswith("logger ")]
    assert got == ([wanted] if wanted else []), f"{statement} prints {got} and not {wanted}"
errors = sum(wanted is not None and " - ERROR - " in wanted for _, wanted in together) + 2
assert verdict == "f" and len(marks) == len(together) + 1, lines[-9:]
assert any(line.endswith(f"test_runner_cleanup found {errors} errors in the log") for line in lines), lines[-9:]

# Each check that fails ends the bench, each that passes doesn't.
for statement, wanted in rows:
    if statement.startswith("check") and '"mine"' not in statement and "result(" not in statement or "failure" in statement:
        verdict, lines = run(["    " + statement])
        passes = " - PASS - " in wanted
        assert verdict == ("p" if passes else "f") and (passes or lines[0] == wanted), f"{statement}: {verdict} {lines}"
