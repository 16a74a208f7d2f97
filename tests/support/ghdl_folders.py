"""What wrappers/ghdl_bench does with the folder of a run: it is empty before GHDL is started, and nothing else is touched.
Works in the present folder."""

import os, shutil, subprocess

from bench_requests import Run, build
from ghdl_bench_texts import WHOLE, bench
from ghdl_trial import with_ghdl
from trial import expect, project, write

# A bench that reads its own output; without the writing it fails, whatever was written before.
WRITES = 'file_open(data, output_path(runner_cfg) & "o.txt", write_mode); write(text_line, string\'("7"));' \
         ' writeline(data, text_line); file_close(data);'
READS = 'file_open(status, data, output_path(runner_cfg) & "o.txt", read_mode); check(status = open_ok, result("of o.txt"));'
VARIABLES = "    file data : text;\n    variable text_line : line;\n    variable status : file_open_status;"
BOTH, READS_ALONE = (bench(f"      {statements}", VARIABLES) for statements in (WRITES + READS, READS))
SUMMARY = "==== Summary\npass {} of 1\nfail {} of 1\nskip 0 of 1\n{}\n"


def stale_files():
    project("stale", {"vunit.toml": with_ghdl({"tb_lib": ["*.vhd"]}), "tb.vhd": BOTH})
    compiled = "Compiling into tb_lib: tb.vhd passed\nCompile passed\n"
    assert expect("it writes", "stale", 0, compiled + "pass tb_lib.tb.all\n" + SUMMARY.format(1, 0, "All passed!"))
    write("stale", {"tb.vhd": READS_ALONE})
    assert expect("it writes no more", "stale", 1, compiled + "fail tb_lib.tb.all\n" + SUMMARY.format(0, 1, "Some failed!"), "-q")


def make_full(folder, victim):
    """Fills a folder of a run with what may lie there."""
    os.makedirs(folder + b"/a/b/c")
    for name in (b"wave.ghw", b"output.txt", b"a/file", b"a/b/c/.hidden"):
        with open(folder + b"/" + name, "w") as file:
            file.write("of an earlier run\n")
    os.symlink(victim, folder + b"/link")
    os.symlink(victim + b"/kept", folder + b"/a/link to a file")
    os.symlink(b"nowhere", folder + b"/a/b/dangling")
    os.mkfifo(folder + b"/pipe")
    for _ in range(1200):
        folder += b"/d"
        os.mkdir(folder)


def is_kept(victim):
    with open(victim + b"/kept") as file:
        return os.listdir(victim) == [b"kept"] and file.read() == "it stays\n"


def passes(run):
    run.code, output, _ = start(run)
    return run.verdicts() == "p" and sorted(os.listdir(run.folder)) == [b"output.txt", b"vunit_results"]


def start(run):
    ran = subprocess.run([f"{os.environ['TOP']}/wrappers/ghdl_bench"], input=run.request(), capture_output=True)
    return ran.returncode, ran.stdout, ran.stderr


stale_files()
os.mkdir("victim")
victim = os.path.abspath(b"victim")
write("victim", {"kept": "it stays\n"})
run = Run(build([(b"tb_lib", b"tb.vhd", WHOLE.encode())]), b"tb_lib", b"tb", b"sim", [])
make_full(run.folder[:-1], victim)
assert passes(run) and is_kept(victim), os.listdir(run.folder)

# A request that is cut takes nothing away that an earlier run has left.
write("vunit_out/tests/tb_lib.tb", {"kept": "still there\n"})
assert subprocess.run([f"{os.environ['TOP']}/wrappers/ghdl_bench"], input=run.request()[:-1], capture_output=True).returncode == 2
assert os.path.exists(run.folder + b"kept")

# The folder of the run is itself a link: it becomes a folder, and what it led to stays.
shutil.rmtree(run.folder)
os.symlink(victim, run.folder[:-1])
assert passes(run) and is_kept(victim) and not os.path.islink(run.folder[:-1])

# A folder elsewhere: one with a file is refused, and one without is used.
other = Run(build([(b"tb_lib", b"tb.vhd", WHOLE.encode())]), b"tb_lib", b"tb", b"sim", [])
for folder in (b"elsewhere/a", b"vunit_out", b"vunit_out/tests", b"vunit_out/testsuite/a"):
    old = other.folder[:-1]
    data = other.request().replace(len(old + b"/vunit_results").to_bytes(4, "little") + old + b"/vunit_results",
                                   len(folder + b"/vunit_results").to_bytes(4, "little") + folder + b"/vunit_results")
    os.makedirs(folder + b"/inner", exist_ok=True)
    ran = subprocess.run([f"{os.environ['TOP']}/wrappers/ghdl_bench"], input=data, capture_output=True)
    said = b"ghdl_bench: %s isn't empty, and only folders in vunit_out/tests are emptied\n" % folder
    assert (ran.returncode, ran.stdout) == (1, said) and os.path.isdir(folder + b"/inner"), (folder, ran)

# A mount in the folder, of the same device too, isn't crossed.
os.makedirs(run.folder + b"in ner/mounted")
if subprocess.run(["mount", "--bind", victim, run.folder + b"in ner/mounted"], capture_output=True).returncode == 0:
    try:
        code, output, _ = start(run)
        path = os.path.abspath(run.folder + b"in ner/mounted")
        assert (code, output) == (1, b"ghdl_bench: something is mounted in the folder of the run: unmount %s\n" % path), output
        assert is_kept(victim)
    finally:
        subprocess.run(["umount", run.folder + b"in ner/mounted"], check=True)
    assert passes(run) and is_kept(victim)
else:
    print("not tried: a mount in the folder of a run, since none could be made")
