"""Slurm on this machine alone: a controller and three machines on loopback, with a key, ports and files of their own."""
from __future__ import annotations

import contextlib
import os
import pwd
import secrets
import shutil
import socket
import subprocess
import tempfile
import time
from pathlib import Path
from typing import Callable, Iterator

from keeping import LOOKED_EACH, kill, marked

# The programs that are needed, with the packages of Debian that have them.
PROGRAMS = {"munged": "munge", "slurmctld": "slurmctld", "slurmd": "slurmd", "sbatch": "slurm-client"}
FOLDERS = f"{os.environ.get('PATH', '')}:/usr/sbin"
MACHINES = ("n1", "n2", "n3")
# In seconds: how long is waited for what has to come, and for a daemon that is to end.
PATIENCE, ENDING = 120.0, 5.0
# How many letters are shown of what a daemon said, where a test fails.
MOST_SHOWN = 2000

CONF = """\
ClusterName=lif
SlurmctldHost=localhost
SlurmctldPort={ports[0]}
SlurmUser={user}
SlurmdUser={user}
AuthType=auth/munge
AuthInfo=socket={room}/munge.socket
CredType=cred/munge
StateSaveLocation={room}/state
SlurmdSpoolDir={room}/%n
SlurmctldPidFile={room}/slurmctld.pid
SlurmdPidFile={room}/%n.pid
ProctrackType=proctrack/linuxproc
TaskPlugin=task/none
MpiDefault=none
SelectType=select/cons_tres
SelectTypeParameters=CR_CPU
SchedulerParameters=batch_sched_delay=0,bf_interval=1
SlurmdParameters=config_overrides
SlurmdTimeout=2
KillWait=1
ReturnToService=2
"""
MACHINE = "NodeName={name} NodeHostname=localhost Port={port} CPUs=8\n"
PARTITION = "PartitionName=all Nodes=ALL Default=YES MaxTime=INFINITE\n"


def missing() -> list[str]:
    """The packages whose programs aren't here."""
    return [package for name, package in PROGRAMS.items() if shutil.which(name, path=FOLDERS) is None]


def wait_for(holds: Callable[[], bool], what: str) -> None:
    """Waits until something holds."""
    end = time.monotonic() + PATIENCE
    while not holds():
        assert time.monotonic() < end, f"{what}: it didn't come within {PATIENCE:.0f} s"
        time.sleep(LOOKED_EACH)


def free_ports(count: int) -> list[int]:
    """Ports of this machine at which nothing listens."""
    sockets = [socket.socket() for _ in range(count)]
    for one in sockets:
        one.bind(("127.0.0.1", 0))
    ports = [int(one.getsockname()[1]) for one in sockets]
    for one in sockets:
        one.close()
    return ports


def parent_of(number: int) -> int:
    """The parent of a process; 0 where that has ended."""
    try:
        return int(Path(f"/proc/{number}/stat").read_text().rpartition(")")[2].split()[1])
    except OSError:
        return 0


class Slurm:
    """A controller and three machines. `env` is the environment in which the commands of Slurm find them."""

    def __init__(self, room: Path, env: dict[str, str]) -> None:
        self.room = room
        self.conf = room / "slurm.conf"
        # With CI Snakemake asks for its jobs each second.
        self.env = {**env, "SLURM_CONF": str(self.conf), "CI": "true"}
        self.running: dict[str, subprocess.Popen[bytes]] = {}

    def start(self) -> None:
        key = self.room / "key"
        key.write_bytes(secrets.token_bytes(128))
        key.chmod(0o600)
        (self.room / "state").mkdir()
        ports = free_ports(1 + len(MACHINES))
        machines = [MACHINE.format(name=name, port=port) for name, port in zip(MACHINES, ports[1:])]
        conf = CONF.format(room=self.room, user=pwd.getpwuid(os.getuid()).pw_name, ports=ports)
        self.conf.write_text(conf + "".join(machines) + PARTITION)
        names = {"key-file": "key", "socket": "munge.socket", "pid-file": "pid", "seed-file": "seed", "log-file": "log"}
        files = [f"--{word}={self.room / name}" for word, name in names.items()]
        self.daemon("munged", "munged", "--foreground", "--force", *files)
        wait_for((self.room / "munge.socket").exists, "munged")
        self.daemon("slurmctld", "slurmctld", "-D")
        for name in MACHINES:
            self.boot(name)
        wait_for(lambda: set(self.ask("sinfo", "-h", "-N", "-o", "%T").split()) == {"idle"}, "idle machines")

    def daemon(self, name: str, program: str, *words: str) -> None:
        with open(self.room / f"{name}.said", "ab") as said:
            self.running[name] = subprocess.Popen(
                [shutil.which(program, path=FOLDERS) or program, *words],
                env=self.env,
                stdin=subprocess.DEVNULL,
                stdout=said,
                stderr=said,
            )

    def boot(self, name: str) -> None:
        self.daemon(name, "slurmd", "-D", "-N", name)

    @contextlib.contextmanager
    def lost(self, name: str) -> Iterator[None]:
        """A machine is away until the end of the block. Its daemon is killed, and then its jobs: first what watches over these,
        so that nothing tells how they ended."""
        daemon = self.running.pop(name)
        daemon.kill()
        daemon.wait()
        jobs = marked(f"SLURM_CONF={self.conf}", f"SLURMD_NODENAME={name}")
        kill([*sorted({parent_of(number) for number in jobs} - {0, 1, *jobs}), *jobs])
        try:
            yield
        finally:
            self.boot(name)

    def ask(self, *words: str) -> str:
        """What a command of Slurm says."""
        done = subprocess.run(words, env=self.env, capture_output=True, text=True, check=False)
        return (done.stdout + done.stderr).strip()

    def end(self) -> None:
        """Ends the daemons, and what is left of jobs."""
        for daemon in reversed(self.running.values()):
            daemon.terminate()
        for daemon in self.running.values():
            try:
                daemon.wait(ENDING)
            except subprocess.TimeoutExpired:
                daemon.kill()
                daemon.wait()
        kill(marked(f"SLURM_CONF={self.conf}"))


@contextlib.contextmanager
def slurm(env: dict[str, str]) -> Iterator[Slurm]:
    """Slurm, until the end of the block. Its folder has a short path, since sockets take no long one."""
    made = Slurm(Path(tempfile.mkdtemp(prefix="lif-slurm-")), env)
    try:
        made.start()
        yield made
    finally:
        made.end()
        for path in sorted(made.room.glob("*.said")):
            print(f"{path.stem} said:\n{path.read_text()[-MOST_SHOWN:]}")
        shutil.rmtree(made.room, ignore_errors=True)
