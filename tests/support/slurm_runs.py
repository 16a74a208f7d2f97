"""Runs wrappers/over_engine and the program over it with a real Slurm. Works in the present folder."""

import os, shutil, signal, subprocess, sys, threading, time
from engine_places import build, make, place_of
from engines import TOP, WRAPPER
from own_slurm import OwnSlurm
from trial import build_text

COUNT, REQUEST = ["sh", "-c", "wc -c; exit 3"], bytes(300_000)


def slurm_place(slurm, name, **settings):
    """A place whose engine is srun, unless the settings say more."""
    return place_of(name, "exit 9\n", **{"SLURM_CONF": slurm.configuration, "OVER_ENGINE": "", **settings})


def wait_for(is_so, what, seconds=60):
    until = time.monotonic() + seconds
    while not is_so():
        assert time.monotonic() < until, what
        time.sleep(0.05)


def answers(slurm):
    place = slurm_place(slurm, "answers")
    rows = [(COUNT, (3, b"300000\n")), (["sh", "-c", "cat; exit 1"], (1, REQUEST[:262_145])), (["no_such"], (75, b"")),
            (["sh", "-c", "kill -SEGV $$"], (139, b""))]
    for words, wanted in rows:
        found = place.run(words, REQUEST)
        assert found[:2] == wanted, f"{words}: it is {found}"
    wide = "srun --quiet --disable-status -N1 -n1 -c 33"
    for number, settings in enumerate([{"SLURM_PARTITION": "none"}, {"OVER_ENGINE": wide, "OVER_ENGINE_QUEUE": "2"}]):
        code, output, said, _ = slurm_place(slurm, f"answers_{number}", **settings).run(COUNT, REQUEST)
        assert (code, output) == (75, b"") and b"over_engine: no answer: " in said, f"{settings}: it is {code} {output!r} {said!r}"
    wait_for(lambda: not slurm.jobs(), f"left in the queue: {slurm.jobs()}")


def builds(slurm):
    """Sixty files at once over the engine, and then none here."""
    place = slurm_place(slurm, "builds")
    text = make(place, 60)
    build(place, 0, text, "-p", "60")
    build(place, 0, build_text([]), over_engine=False)


def ends(slurm):
    place = slurm_place(slurm, "ends")
    for by in signal.SIGTERM, signal.SIGINT, signal.SIGKILL, "closed reader", "group":
        child = place.start(["sh", "-c", 'touch "$PLACE/begun"; sleep 1000'], REQUEST, start_new_session=True)
        wait_for(lambda: os.path.exists(place.path("begun")), f"{by}: nothing has begun")
        if by == "closed reader":
            child.stdout.close()
        elif by == "group":
            os.killpg(child.pid, signal.SIGKILL)
        else:
            child.send_signal(by)
        child.wait(30)
        place.seconds_until_nothing_is_left()
        wait_for(lambda: not slurm.jobs(), f"{by}: left in the queue: {slurm.jobs()}")
        os.remove(place.path("begun"))


def lost_node(slurm):
    """Of 48 compilers at once, some run on a node that is lost: all files are compiled."""
    place = slurm_place(slurm, "lost", LATE="6")
    text, lost = make(place, 48), []

    def lose():
        # (a command there, its shell and what that waits for)
        wait_for(lambda: len(slurm.ids_with(b"SLURMD_NODENAME=n2")) > 3 * 10, "nothing runs on the second node")
        lost.append("n2")
        slurm.lose("n2")

    loser = threading.Thread(target=lose)
    loser.start()
    given = {**place.environment, "PATH": os.pathsep.join([place.path("cluster"), place.environment["PATH"]])}
    ran = subprocess.run([os.environ["VUNIT_RUN"], "--compile", "-p", "48"], cwd=place.path("project"), env=given,
                         capture_output=True, timeout=200)
    loser.join()
    assert (ran.returncode, ran.stdout) == (0, text.encode()), f"a lost node: it is {ran}"
    tries = ran.stderr.count(b"another try follows")
    assert lost and tries, f"a lost node: nothing was lost, it says {ran.stderr}"
    print(f"{tries} compiles were tried again after the node was lost")
    # (of these the folders stay, as on a node that was switched off)
    for name in os.listdir(place.tmp):
        shutil.rmtree(os.path.join(place.tmp, name))
    build(place, 0, build_text([]), over_engine=False)


def commands_of_the_page():
    """The lines of the first fence of its section in the page on other machines."""
    with open(os.path.join(TOP, "docs", "user", "CLUSTER.md")) as page:
        section = page.read().split("\n## With Slurm\n")[1].split("\n## ")[0]
    return section.split("\n```\n")[1]


def page(slurm):
    """What the page says to type, in a copy of the example of GHDL; then a run without the engine has nothing to do."""
    if not shutil.which("ghdl"):
        print("not tried: ghdl is missing, so the lines of the page weren't run")
        return
    place = slurm_place(slurm, "page")
    shutil.copytree(os.path.join(TOP, "examples", "ghdl_counter"), place.path("project"))
    for folder in "home", "programs":
        os.mkdir(place.path(folder))
    os.symlink(TOP, place.path("home", "vunit_run"))
    os.symlink(os.environ["VUNIT_RUN"], place.path("programs", "vunit_run"))
    path = os.pathsep.join([place.path("programs"), place.environment["PATH"]])
    given = {**place.environment, "HOME": place.path("home"), "PATH": path}
    lines = f"set -e\n{commands_of_the_page()}\nvunit_run --compile\n"
    ran = subprocess.run(["sh", "-c", lines], cwd=place.path("project"), env=given, capture_output=True, timeout=200)
    assert ran.returncode == 0 and ran.stdout.endswith(b"Compile passed\nRe-compile not needed\n"), f"the lines of the page: it is {ran}"
    jobs = slurm.asks("squeue", "-h", "--states=all", "--partition=fast", "-o", "%l").split()
    assert jobs and set(jobs) == {"30:00"}, f"the lines of the page: in its partition are {jobs}"
    place.seconds_until_nothing_is_left()


def ghdl_examples(slurm):
    """The examples of GHDL by links of its wrappers' names."""
    if not shutil.which("ghdl"):
        print("not tried: ghdl is missing, so its examples weren't run over Slurm")
        return
    place = slurm_place(slurm, "ghdl")
    links = place.path("links")
    os.mkdir(links)
    for name in "ghdl_analyse", "ghdl_bench":
        os.symlink(WRAPPER, os.path.join(links, name))
    shutil.copytree(os.path.join(TOP, "examples", "ghdl_counter"), place.path("project"))
    given = {**place.environment, "PATH": os.pathsep.join([links, place.environment["PATH"]]), "WRAPPERS": links}
    words = [os.environ["VUNIT_RUN"], "--compile", "-p", "4"]
    ran = subprocess.run(words, cwd=place.path("project"), env=given, capture_output=True, timeout=100)
    assert ran.returncode == 0 and ran.stdout.endswith(b"Compile passed\n"), f"ghdl_counter: it is {ran}"
    ran = subprocess.run(words, cwd=place.path("project"), env=place.environment, capture_output=True, timeout=100)
    assert ran.stdout == b"Re-compile not needed\n", f"ghdl_counter here: it is {ran}"
    os.mkdir(place.path("benches"))
    ran = subprocess.run([sys.executable, os.path.join(TOP, "tests", "support", "ghdl_examples.py")],
                         cwd=place.path("benches"), env=given, capture_output=True, timeout=200)
    assert ran.returncode == 0, f"benches: {ran.stdout.decode()}{ran.stderr.decode()}"
    place.seconds_until_nothing_is_left()


with OwnSlurm("slurm") as slurm:
    # (the last one loses a node)
    for work in answers, builds, page, ends, ghdl_examples, lost_node:
        begun = time.monotonic()
        work(slurm)
        print(f"{work.__name__}: {time.monotonic() - begun:.0f} s", flush=True)
assert not slurm.ids_with(), "a daemon is left"
