"""A Slurm of the test's own, on loopback: one controller and several nodes of this machine, with a key, ports and a folder of
its own. It needs root, and touches no other Slurm. Its daemons are ended by their ids."""

import os, shutil, signal, socket, subprocess, time

COMMANDS = ["munged", "slurmctld", "slurmd", "srun", "sinfo", "squeue"]
CONFIGURATION = """ClusterName=own
SlurmctldHost={host}(127.0.0.1)
SlurmctldPort={controller}
SlurmUser=root
SlurmdUser=root
AuthType=auth/munge
AuthInfo=socket={folder}/munge.socket
CommunicationParameters=NoInAddrAny
StateSaveLocation={folder}/state
SlurmdSpoolDir={folder}/spool.%n
SlurmctldPidFile={folder}/slurmctld.pid
SlurmdPidFile={folder}/slurmd.%n.pid
SlurmctldLogFile={folder}/slurmctld.log
SlurmdLogFile={folder}/slurmd.%n.log
ProctrackType=proctrack/linuxproc
TaskPlugin=task/none
SelectType=select/cons_tres
SelectTypeParameters=CR_CPU
JobAcctGatherType=jobacct_gather/none
MpiDefault=none
ReturnToService=2
SlurmdTimeout=30
KillWait=5
MaxJobCount=20000
MinJobAge=10
SlurmdParameters=config_overrides
PartitionName=all Nodes=ALL Default=YES MaxTime=INFINITE State=UP
PartitionName=fast Nodes=ALL MaxTime=60 State=UP
"""
NODE = "NodeName={name} NodeHostname={host} NodeAddr=127.0.0.1 Port={port} CPUs={slots} State=UNKNOWN\n"


def missing():
    """What lacks for it, or nothing."""
    path = os.environ["PATH"] + ":/usr/sbin:/sbin"
    lacking = [command for command in COMMANDS if not shutil.which(command, path=path)]
    if lacking:
        return f"{lacking[0]} is missing"
    return "" if os.getuid() == 0 else "this isn't root"


def free_port():
    with socket.socket() as free:
        free.bind(("127.0.0.1", 0))
        return free.getsockname()[1]


def parent_of(number):
    try:
        with open(f"/proc/{number}/stat") as file:
            return int(file.read().rpartition(")")[2].split()[1])
    except OSError:
        return None


def end_process(number):
    try:
        os.kill(number, signal.SIGKILL)
    except ProcessLookupError:
        pass


class OwnSlurm:
    def __init__(self, folder, nodes=("n1", "n2"), slots=32):
        self.folder, self.nodes, self.daemons = os.path.abspath(folder), list(nodes), {}
        host = socket.gethostname().split(".")[0]
        for name in "", "state", *(f"spool.{node}" for node in nodes):
            os.makedirs(os.path.join(self.folder, name), mode=0o755)
        self.configuration = os.path.join(self.folder, "slurm.conf")
        with open(self.configuration, "w") as file:
            file.write(CONFIGURATION.format(host=host, folder=self.folder, controller=free_port()))
            for node in nodes:
                file.write(NODE.format(name=node, host=host, port=free_port(), slots=slots))
        self.mark = b"SLURM_CONF=" + os.fsencode(self.configuration)
        self.environment = {**os.environ, "SLURM_CONF": self.configuration, "PATH": os.environ["PATH"] + ":/usr/sbin:/sbin"}

    def __enter__(self):
        try:
            self.start_munge()
            self.start("slurmctld", "slurmctld", "-D", "-i", "-f", self.configuration)
            for node in self.nodes:
                self.start(node, "slurmd", "-D", "-N", node, "-f", self.configuration)
            self.wait_until_idle()
        except BaseException:
            self.end()
            raise
        return self

    def __exit__(self, *_):
        self.end()

    def start_munge(self):
        key = os.path.join(self.folder, "munge.key")
        with open(os.open(key, os.O_WRONLY | os.O_CREAT, 0o400), "wb") as file:
            file.write(os.urandom(1024))
        names = {"socket": "munge.socket", "pid-file": "munged.pid", "log-file": "munged.log", "seed-file": "munge.seed"}
        # (its folder may lie below one that others can write, as /tmp)
        self.start("munged", "munged", "--foreground", "--force", f"--key-file={key}",
                   *(f"--{word}={os.path.join(self.folder, name)}" for word, name in names.items()))
        self.wait_for(lambda: os.path.exists(os.path.join(self.folder, "munge.socket")), "munged")

    def start(self, name, *words):
        with open(os.path.join(self.folder, f"{name}.said"), "ab") as said:
            self.daemons[name] = subprocess.Popen(words, env=self.environment, stdin=subprocess.DEVNULL, stdout=said, stderr=said)

    def wait_for(self, is_so, what):
        until = time.monotonic() + 60
        while not is_so():
            if time.monotonic() > until:
                raise AssertionError(f"{what} didn't come up: {self.said()}")
            time.sleep(0.1)

    def said(self):
        found = []
        for name in sorted(os.listdir(self.folder)):
            if name.endswith((".said", ".log")):
                with open(os.path.join(self.folder, name), errors="replace") as file:
                    found += [name, *file.read().splitlines()[-5:]]
        return "\n".join(found)

    def asks(self, *words):
        return subprocess.run(words, env=self.environment, capture_output=True, text=True).stdout

    def wait_until_idle(self):
        self.wait_for(lambda: self.asks("sinfo", "-h", "-N", "-p", "all", "-o", "%T").split() == ["idle"] * len(self.nodes), "the nodes")

    def jobs(self):
        return self.asks("squeue", "-h").splitlines()

    def ids_with(self, *marks):
        """The ids of processes whose environment has these."""
        found = []
        for number in filter(str.isdigit, os.listdir("/proc")):
            try:
                with open(f"/proc/{number}/environ", "rb") as file:
                    if {self.mark, *marks} <= {*file.read().split(b"\0")}:
                        found.append(int(number))
            except OSError:
                continue
        return found

    def lose(self, node):
        """A node is gone at once, with all that runs on it."""
        tasks = self.ids_with(b"SLURMD_NODENAME=" + node.encode())
        steps = {parent for parent in map(parent_of, tasks) if parent in self.ids_with()} - set(tasks)
        self.daemons[node].kill()
        # (first the ones that would tell how the others have ended)
        for number in [*steps, *tasks]:
            end_process(number)

    def end(self):
        for name in reversed(list(self.daemons)):
            self.daemons[name].terminate()
            try:
                self.daemons[name].wait(10)
            except subprocess.TimeoutExpired:
                self.daemons[name].kill()
                self.daemons[name].wait()
        # (what has come of jobs, and helpers of daemons)
        for number in self.ids_with():
            end_process(number)
