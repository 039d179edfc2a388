"""A cluster of Slurm on this machine, for trying: munge, a controller and daemons, each a process of this one, on free ports of loopback.

Who has it becomes the parent of what the daemons leave, so that the processors' time of all is told at the end, and nothing stays.
"""

import contextlib
import ctypes
import os
import resource
import shutil
import signal
import subprocess
import tempfile
import threading
import time

SUBREAPER = 36  # PR_SET_CHILD_SUBREAPER of Linux
CONFIGURATION = """ClusterName=trial
SlurmctldHost=localhost(127.0.0.1)
SlurmctldPort={controller}
SlurmctldParameters=enable_configless
SlurmUser=root
SlurmdUser=root
AuthType=auth/munge
AuthInfo=socket={folder}/munge/socket
CryptoType=crypto/munge
MpiDefault=none
ProctrackType=proctrack/pgid
TaskPlugin=task/none
ReturnToService=2
StateSaveLocation={folder}/state
SlurmdSpoolDir={folder}/spool-%n
SlurmctldPidFile={folder}/slurmctld.pid
SlurmdPidFile={folder}/slurmd-%n.pid
SlurmctldLogFile={folder}/slurmctld.log
SlurmdLogFile={folder}/slurmd-%n.log
SwitchType=switch/none
SchedulerType=sched/backfill
SchedulerParameters=bf_interval=2,sched_interval=2,batch_sched_delay=0,sched_min_interval=100000
SelectType=select/cons_tres
SelectTypeParameters=CR_CPU
AccountingStorageType=accounting_storage/none
JobAcctGatherType=jobacct_gather/none
JobCompType=jobcomp/none
MinJobAge=20
MaxArraySize=10001
MaxJobCount=20000
InactiveLimit=0
KillWait=5
SlurmctldTimeout=30
SlurmdTimeout=30
MessageTimeout=60
{nodes}
PartitionName=main Nodes=ALL Default=YES MaxTime=INFINITE State=UP
"""


def children():
    """The processes whose parent is this one."""
    with open(f"/proc/self/task/{os.getpid()}/children", encoding="ascii") as file:
        return [int(pid) for pid in file.read().split()]


class Cluster:
    """A controller and so many daemons, each with so many processors. `environment`: what Slurm's commands need."""

    def __init__(self, ports, daemons=2, processors=2):
        self.ports, self.count, self.processors = ports, daemons, processors
        self.names = [f"n{k}" for k in range(1, daemons + 1)]
        self.processes, self.folder, self.is_over = {}, None, threading.Event()

    def __enter__(self):
        ctypes.CDLL(None).prctl(SUBREAPER, 1)
        threading.Thread(target=self.reap, daemon=True).start()
        self.folder = tempfile.mkdtemp(prefix="slurm-")
        os.chmod(self.folder, 0o755)
        try:
            self.start_munge()
            self.start_slurm()
        except BaseException:
            self.__exit__()
            raise
        return self

    def start(self, name, words):
        with open(f"{self.folder}/{name}.out", "wb") as out:
            self.processes[name] = subprocess.Popen(words, stdin=subprocess.DEVNULL, stdout=out, stderr=out, env=os.environ | self.environment)

    def start_munge(self):
        where = f"{self.folder}/munge"
        os.mkdir(where, 0o755)
        with open(os.open(f"{where}/key", os.O_CREAT | os.O_WRONLY, 0o400), "wb") as key:
            key.write(os.urandom(128))
        self.environment = {"SLURM_CONF": f"{self.folder}/slurm.conf"}
        names = {"key-file": "key", "socket": "socket", "pid-file": "pid", "log-file": "log", "seed-file": "seed"}
        self.start("munged", ["munged", "--foreground", "--force", *[f"--{name}={where}/{file}" for name, file in names.items()]])
        self.wait_until(lambda: os.path.exists(f"{where}/socket"), "munge")

    def start_slurm(self):
        nodes = [
            f"NodeName={name} NodeHostname=localhost NodeAddr=127.0.0.1 Port={port} CPUs={self.processors} State=UNKNOWN"
            for name, port in zip(self.names, self.ports[1:])
        ]
        os.mkdir(f"{self.folder}/state")
        with open(self.environment["SLURM_CONF"], "w", encoding="ascii") as file:
            file.write(CONFIGURATION.format(folder=self.folder, controller=self.ports[0], nodes="\n".join(nodes)))
        self.start("slurmctld", ["slurmctld", "-D", "-i"])
        for name in self.names:
            self.start_daemon(name)
        self.wait_until(lambda: self.told("sinfo", "-h", "-o", "%T").split() == ["idle"], "Slurm's daemons")

    def start_daemon(self, name):
        os.makedirs(f"{self.folder}/spool-{name}", exist_ok=True)
        self.start(name, ["slurmd", "-D", "-N", name])

    def told(self, *words):
        ran = subprocess.run(words, capture_output=True, text=True, env=os.environ | self.environment, check=False)
        return ran.stdout

    def wait_until(self, is_so, what, seconds=300):
        limit = time.monotonic() + seconds
        while not is_so():
            ended = [name for name, process in self.processes.items() if process.poll() is not None]
            if ended or time.monotonic() > limit:
                raise SystemExit(f"{what}: {', '.join(ended) or 'nobody'} ended; {self.logs()}")
            time.sleep(0.1)

    def logs(self):
        """The last lines that the daemons wrote."""
        lines = []
        for name in sorted(os.listdir(self.folder)):
            if name.endswith((".log", ".out")):
                with open(f"{self.folder}/{name}", encoding="utf-8", errors="replace") as file:
                    lines += [f"{name}: {line.rstrip()}" for line in file.readlines()[-3:]]
        return "\n".join(lines)

    def kill(self, name):
        """Ends a daemon as a power cut would, with what it runs: at once. How many processes that were."""
        process = self.processes.pop(name)
        family = self.family(name) | {process.pid}
        for pid in family:
            with contextlib.suppress(ProcessLookupError):
                os.kill(pid, signal.SIGKILL)
        process.wait()
        return len(family)

    def family(self, name):
        """What a daemon runs: the processes in whose environment its name stands, and those above them up to this one."""
        mark, found = {f"SLURMD_NODENAME={name}".encode(), f"SLURM_CONF={self.environment['SLURM_CONF']}".encode()}, set()
        for entry in filter(str.isdigit, os.listdir("/proc")):
            pid = int(entry)
            with contextlib.suppress(OSError):
                with open(f"/proc/{pid}/environ", "rb") as file:
                    is_its = mark <= set(file.read().split(b"\0"))
                while is_its and pid not in (os.getpid(), 1, 0):
                    found.add(pid)
                    with open(f"/proc/{pid}/stat", encoding="ascii", errors="replace") as stat:
                        pid = int(stat.read().rpartition(")")[2].split()[1])
        return found

    def __exit__(self, *_):
        self.told("scancel", "--user=root") if "slurmctld" in self.processes else None
        self.is_over.set()
        for how, patience in ((signal.SIGTERM, 10), (signal.SIGKILL, 5)):
            for process in reversed(self.processes.values()):
                if process.poll() is None:
                    process.send_signal(how)
            limit = time.monotonic() + patience
            while any(process.poll() is None for process in self.processes.values()) and time.monotonic() < limit:
                time.sleep(0.05)
        self.gather()
        shutil.rmtree(self.folder, ignore_errors=True)

    def reap(self):
        """Waits for what ends of that which the daemons started, as an init does: a task that nobody waits for is still there to Slurm, which a minute
        later takes the node for broken. Such processes have a session of their own, and no `Popen` of this process has."""
        while not self.is_over.wait(0.2):
            for pid in children():
                with contextlib.suppress(OSError):
                    if os.getsid(pid) != os.getsid(0):
                        os.waitpid(pid, os.WNOHANG)

    def gather(self):
        """Ends and waits for what the daemons left, each a child of this process by now."""
        for _ in range(100):
            known = {process.pid for process in self.processes.values() if process.poll() is None}
            left = [pid for pid in children() if pid not in known]
            if not left:
                return
            for pid in left:
                try:
                    os.kill(pid, signal.SIGKILL)
                    os.waitpid(pid, 0)
                except (ProcessLookupError, ChildProcessError):
                    pass

    @staticmethod
    def spent():
        """The seconds of processors that all processes took that were waited for."""
        usage = resource.getrusage(resource.RUSAGE_CHILDREN)
        return usage.ru_utime + usage.ru_stime
