"""A cluster of this machine alone: the daemons of Slurm and Munge, whose files are all in one temporary folder."""

import ctypes
import getpass
import os
import shutil
import signal
import socket
import subprocess
import tempfile
import time
from pathlib import Path

COMMANDS = ("munged", "slurmctld", "slurmd", "sbatch", "squeue", "scancel", "sinfo")
PLACES = "/usr/sbin:/usr/local/sbin:/sbin"  # Where daemons are, beside the path of an ordinary user.
DAEMONS = 3  # Munge, the controller, and the daemon of the node.
PATIENCE = 60  # Seconds until a daemon must answer or have ended.
DEATH_SIGNAL = 1  # Of prctl: which signal comes when the parent ends.
CONFIGURATION = """\
ClusterName=trial
SlurmctldHost={host}(127.0.0.1)
SlurmctldPort={ports[0]}
SlurmdPort={ports[1]}
SlurmUser={user}
SlurmdUser={user}
AuthType=auth/munge
AuthInfo=socket={room}/munge.socket
CredType=cred/munge
StateSaveLocation={room}/state
SlurmdSpoolDir={room}/spool
SlurmctldPidFile={room}/slurmctld.pid
SlurmdPidFile={room}/slurmd.pid
SlurmctldLogFile={room}/slurmctld.log
SlurmdLogFile={room}/slurmd.log
ProctrackType=proctrack/linuxproc
TaskPlugin=task/none
MpiDefault=none
JobAcctGatherType=jobacct_gather/none
AccountingStorageType=accounting_storage/none
SelectType=select/cons_tres
SelectTypeParameters=CR_Core_Memory
ReturnToService=2
KillWait=2
{node} NodeAddr=127.0.0.1 State=UNKNOWN
PartitionName=all Nodes=ALL Default=YES State=UP
"""


class NotStarted(Exception):
    """A daemon does not answer; the words say which, and what it logged."""


def place(name):
    """Where a command is, None where it is not there."""
    return shutil.which(name) or shutil.which(name, path=PLACES)


def missing():
    """The commands of Slurm and Munge that are not there."""
    return [name for name in COMMANDS if place(name) is None]


def versions():
    """Which Slurm and Munge these are."""
    return ", ".join(asked(name, "-V").split(" (")[0] for name in ("slurmctld", "munged"))


def free_ports(count):
    """So many ports at which nobody listens."""
    sockets = [socket.socket() for _ in range(count)]
    for it in sockets:
        it.bind(("127.0.0.1", 0))
    found = [it.getsockname()[1] for it in sockets]
    for it in sockets:
        it.close()
    return found


def with_parent(number):
    """What a process does as it begins, so that it gets this signal where this process is killed and cannot end it."""
    return lambda: ctypes.CDLL(None).prctl(DEATH_SIGNAL, number)


class Cluster:
    """As a context: the daemons run in it, SLURM_CONF names their configuration, and they and their files are gone after it."""

    def __enter__(self):
        # Munge refuses a folder that others can write, and asks that all can enter it.
        self.room = Path(tempfile.mkdtemp(prefix="slurm."))
        self.room.chmod(0o755)
        self.daemons = []
        # What is set for another cluster is none of this one's.
        for name in [it for it in os.environ if it.startswith(("SLURM_", "SBATCH_"))]:
            del os.environ[name]
        try:
            self._start()
        except BaseException:
            self.__exit__()
            raise
        return self

    def _start(self):
        for name in ("state", "spool"):
            (self.room / name).mkdir()
        key = self.room / "munge.key"
        key.touch(0o600)
        key.write_bytes(os.urandom(128))
        files = [f"--{name}-file={self.room}/munge.{name}" for name in ("key", "pid", "log", "seed")]
        self._daemon("munged", "--foreground", f"--socket={self.room}/munge.socket", *files)
        self._await("munged", (self.room / "munge.socket").exists)
        node = subprocess.run([place("slurmd"), "-C"], stdout=subprocess.PIPE, text=True).stdout.splitlines()[0]
        host = node.split()[0].partition("=")[2]
        configuration = self.room / "slurm.conf"
        configuration.write_text(
            CONFIGURATION.format(host=host, node=node, room=self.room, user=getpass.getuser(), ports=free_ports(2))
        )
        os.environ["SLURM_CONF"] = str(configuration)
        self._daemon("slurmctld", "-D")
        self._daemon("slurmd", "-D")
        self._await("slurmctld", lambda: asked("sinfo", "--noheader", "--format=%T") == "idle")

    def _daemon(self, name, *words):
        """Starts a daemon, in a session of its own, since an interrupt at the terminal is for this process alone."""
        with open(self.room / f"{name}.out", "w") as log:
            self.daemons.append(subprocess.Popen(
                [place(name), *words], stdin=subprocess.DEVNULL, stdout=log, stderr=subprocess.STDOUT,
                start_new_session=True, preexec_fn=with_parent(signal.SIGTERM),
            ))

    def _await(self, name, is_there):
        until = time.monotonic() + PATIENCE
        while not is_there():
            if time.monotonic() > until or any(it.poll() is not None for it in self.daemons):
                told = [line for path in sorted(self.room.glob("*.out")) for line in path.read_text().splitlines()[-5:]]
                raise NotStarted("\n".join([f"{name} does not answer", *told]))
            time.sleep(0.2)

    def __exit__(self, *_):
        """Ends the jobs, which would outlive the daemons, then the daemons, the last one first."""
        if len(self.daemons) == DAEMONS:
            asked("scancel", f"--user={getpass.getuser()}")
            until = time.monotonic() + PATIENCE
            while asked("squeue", "--noheader") and time.monotonic() < until:
                time.sleep(0.2)
        for daemon in reversed(self.daemons):
            end(daemon)
        shutil.rmtree(self.room, ignore_errors=True)


def end(daemon):
    """Ends a process that was started here."""
    daemon.terminate()
    try:
        daemon.wait(PATIENCE)
    except subprocess.TimeoutExpired:
        daemon.kill()
        daemon.wait()


def asked(name, *words):
    """What a command of Slurm prints, empty where Slurm does not answer in time."""
    printed = dict(stdout=subprocess.PIPE, stderr=subprocess.DEVNULL, text=True)
    try:
        ended = subprocess.run([place(name), *words], timeout=PATIENCE, **printed)
    except subprocess.TimeoutExpired:
        return ""
    return ended.stdout.strip()
