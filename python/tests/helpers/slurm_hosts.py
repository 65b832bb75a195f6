"""A Slurm on the hosts of a test: its controller on the first one, and a node on each other."""

from __future__ import annotations

import os
import secrets
import subprocess
from pathlib import Path

from helpers.host_scenarios import wait_until
from helpers.hosts import Host, Network

CONTROLLER = "controller"
# Seconds after which a node that does not answer counts as down.
SILENCE = 10
CONFIGURATION = """
ClusterName=pitplan
SlurmctldHost={controller}({address})
SlurmUser=root
AuthType=auth/munge
AuthInfo=socket={state}/munge.socket
StateSaveLocation={state}/save
SlurmdSpoolDir={state}/spool-%n
SlurmctldPidFile={state}/slurmctld.pid
SlurmdPidFile={state}/slurmd-%n.pid
SlurmctldLogFile={state}/slurmctld.log
SlurmdLogFile={state}/slurmd-%n.log
ProctrackType=proctrack/linuxproc
TaskPlugin=task/none
JobAcctGatherType=jobacct_gather/none
AccountingStorageType=accounting_storage/none
MpiDefault=none
SelectType=select/cons_tres
SelectTypeParameters=CR_CPU
SlurmdTimeout={silence}
MinJobAge=3600
ReturnToService=0
{nodes}
PartitionName=all Nodes=ALL Default=YES MaxTime=INFINITE State=UP
"""


class Slurm:
    """A Slurm whose files are in a folder.

    Attributes
    ----------
    nodes : dict of str to Host
        The nodes by name.
    log : Path
        What the controller says.
    """

    def __init__(self, network: Network, folder: Path) -> None:
        self.state = folder / "slurm"
        self.log = self.state / "slurmctld.log"
        (self.state / "save").mkdir(parents=True)
        self.first = network.hosts[0]
        self.nodes = {f"node{number}": host for number, host in enumerate(network.hosts[1:], 1)}
        self.munge()
        lines = [f"NodeName={name} NodeAddr={host.address} CPUs=1 State=UNKNOWN" for name, host in self.nodes.items()]
        values = {"controller": CONTROLLER, "address": self.first.address, "state": self.state, "silence": SILENCE}
        file = self.state / "slurm.conf"
        file.write_text(CONFIGURATION.format(**values, nodes="\n".join(lines)), encoding="utf-8")
        self.environment = {**os.environ, "SLURM_CONF": str(file)}
        self.start(self.first, CONTROLLER, "slurmctld", "-D", "-f", file)
        for name, host in self.nodes.items():
            self.start(host, name, "slurmd", "-D", "-f", file)
        wait_until(lambda: self.states() == ["idle"] * len(self.nodes), 60, self.log)

    def start(self, host: Host, name: str, *words: object) -> None:
        """Starts a program on a host that has that name."""
        inside = ["unshare", "--uts", "sh", "-c", 'hostname "$0"; exec "$@"', name]
        host.start(*inside, *words, log=self.state / f"{name}.out", env=self.environment)

    def munge(self) -> None:
        """Starts the daemon by whose key the hosts trust each other; its socket is in the shared folder."""
        key, socket = self.state / "munge.key", self.state / "munge.socket"
        key.write_bytes(secrets.token_bytes(1024))
        key.chmod(0o400)
        files = [f"--{name}-file={self.state}/munge.{name}" for name in ("pid", "log", "seed")]
        words = ["munged", "--foreground", "--force", f"--key-file={key}", f"--socket={socket}", *files]
        self.first.start(*words, log=self.state / "munged.out")
        wait_until(socket.is_socket, 20, self.state / "munged.out")

    def asked(self, *words: str) -> str:
        """Returns what a command of Slurm prints on the first host."""
        ran = self.first.run(*words, env=self.environment)
        return ran.stdout if ran.returncode == 0 else ""

    def states(self) -> list[str]:
        """The state of each node."""
        return self.asked("sinfo", "--Node", "--noheader", "--format=%t").split()

    def is_empty(self) -> bool:
        """Whether no job waits or runs."""
        ran = self.first.run("squeue", "--noheader", env=self.environment)
        return ran.returncode == 0 and not ran.stdout.strip()

    def drain(self, name: str) -> None:
        """Lets a node end what it runs, and gives it nothing more."""
        words = ["scontrol", "update", f"NodeName={name}", "State=DRAIN", "Reason=test"]
        subprocess.run(self.first.command(*words), env=self.environment, check=True)

    def nodes_of_tasks(self) -> set[str]:
        """The nodes on which tasks ran."""
        words = self.asked("scontrol", "--oneliner", "show", "job").split()
        return {word.partition("=")[2] for word in words if word.startswith("NodeList=") and word != "NodeList="}
