#!/bin/sh
# The program is killed alone while wrappers/ghdl_analyse compiles: GHDL, for which another command stands here, is ended, and
# nothing of the wrapper is left.
. "$TOP/tests/support/needs.sh"
needs python3
PYTHONPATH=$TOP/tests/support exec python3 -B - <<'END'
import os, subprocess, time

from trial import PROGRAM, end, expect, fail, package, project, toml

WRAPPER = os.path.join(os.environ["TOP"], "wrappers", "ghdl_analyse")
SLOW = '#!/bin/sh\necho $$ >"$ROOM/ghdl.new"\nmv "$ROOM/ghdl.new" "$ROOM/ghdl.pid"\nexec sleep 60\n'


def wait_until(name, holds):
    until = time.monotonic() + 20
    while not holds():
        if time.monotonic() > until:
            fail("a runner that is killed", f"after 20 seconds: {name}")
            end()
        time.sleep(0.01)


room = os.path.abspath("room")
os.makedirs(os.path.join(room, "tmp"))
os.makedirs(os.path.join(room, "bin"))
with open(os.path.join(room, "bin", "ghdl"), "w") as file:
    # (the wrapper hands on PATH alone)
    file.write(SLOW.replace("$ROOM", room))
os.chmod(os.path.join(room, "bin", "ghdl"), 0o755)
project("project", {"a.vhd": package("a"), "vunit.toml": toml({"lib": ["*.vhd"]}, [WRAPPER])})
given = dict(os.environ, PATH=os.path.join(room, "bin") + ":" + os.environ["PATH"], TMPDIR=os.path.join(room, "tmp"))
runner = subprocess.Popen([PROGRAM, "--compile"], cwd="project", env=given, stdin=subprocess.DEVNULL, stdout=subprocess.DEVNULL)
wait_until("no ghdl runs", lambda: os.path.exists("room/ghdl.pid"))
with open("room/ghdl.pid") as file:
    ghdl = int(file.read())
runner.kill()
runner.wait()
wait_until("ghdl runs on", lambda: not os.path.exists(f"/proc/{ghdl}"))
wait_until("the wrapper has left its folder", lambda: not os.listdir("room/tmp"))
end()
END
