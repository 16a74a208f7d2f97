"""Stops wrappers/ghdl_bench over benches without end, at fixed moments and at some by chance, by signals, by a closed reader
and with the runner: no process and no folder is left. Works in the present folder."""

import os, random, signal, subprocess, sys, time
from bench_requests import SIMULATOR, Run, build
from ghdl_bench_texts import ENDLESS
from ghdl_left import MARK, left, see_nothing

tmp = os.path.abspath("tmp")
os.mkdir(tmp)
os.environ["TMPDIR"] = tmp
built = build([(b"tb_lib", b"tb.vhd", ENDLESS.encode())])
run = Run(built, b"tb_lib", b"tb", b"sim", [b"no time"])
run.prepare()
whole = run.request()


def start():
    usual = lambda: [signal.signal(number, signal.SIG_DFL) for number in (signal.SIGINT, signal.SIGHUP, signal.SIGTERM)]
    child = subprocess.Popen([SIMULATOR, MARK], stdin=subprocess.PIPE, stdout=subprocess.PIPE, stderr=subprocess.DEVNULL,
                             preexec_fn=usual)
    try:
        child.stdin.write(whole)
        child.stdin.close()
    except BrokenPipeError:
        pass
    return child


def is_running():
    """Whether the bench has begun: the library has made its results."""
    return os.path.exists(run.results)


def wait_until(is_so):
    until = time.monotonic() + 20
    while not is_so():
        assert time.monotonic() < until, f"not so in time; left behind: {left()}"
        time.sleep(0.01)


chance = random.Random(29)
moments = [0, 0.02, 0.04, 0.06, 0.1, "running"]
for by in [signal.SIGTERM, signal.SIGINT, signal.SIGHUP, signal.SIGKILL, "closed reader"]:
    for moment in [*moments, *(chance.uniform(0, 0.3) for _ in range(4))]:
        if is_running():
            os.remove(run.results)
        child = start()
        if moment == "running":
            wait_until(is_running)
        else:
            time.sleep(moment)
        if by == "closed reader":
            child.stdout.close()
        else:
            child.send_signal(by)
        code = child.wait(20)
        if by != signal.SIGKILL and moment == "running":
            number = signal.SIGPIPE if by == "closed reader" else by
            assert code == 128 + number, f"{by} at {moment}: {code}"
            assert not left(), f"{by} at {moment}: left behind: {left()}"
        see_nothing((by, moment))

# A runner that is killed with benches without end, each in its own folder.
for number in range(4):
    one = Run(built, b"tb_lib", b"tb", b"sim", [b"no time %d" % number])
    one.prepare()
    with open(f"request{number}", "wb") as file:
        file.write(one.request())
runner = subprocess.Popen([sys.executable, "-c", """
import subprocess, sys, time
children = [subprocess.Popen(sys.argv[1:], stdin=subprocess.PIPE, stdout=subprocess.PIPE) for _ in range(4)]
for number, child in enumerate(children):
    with open(f"request{number}", "rb") as file:
        child.stdin.write(file.read())
    child.stdin.close()
print("handed over", flush=True)
time.sleep(60)
""", SIMULATOR, MARK], stdout=subprocess.PIPE)
assert runner.stdout.readline() == b"handed over\n"
wait_until(lambda: sum(b"runner_cfg" in words for words in left() if isinstance(words, bytes)) == 4)
runner.kill()
runner.wait()
see_nothing("a killed runner")
