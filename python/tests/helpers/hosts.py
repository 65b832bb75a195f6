"""Hosts on this machine for tests, as root: network namespaces that a switch joins, each with an address of its own.

Hosts see the same files, as hosts with a shared folder do. Links are cut and joined again, or made slow and lossy; a host that dies loses
all its processes at once.
"""

from __future__ import annotations

import os
import shutil
import signal
import subprocess
import sys
from contextlib import ExitStack
from pathlib import Path
from types import TracebackType
from typing import Any, Optional

SWITCH = "switch"
SLOW_LINK = Path(__file__).with_name("slow_link.py")


def can_make_hosts() -> bool:
    """Returns whether this process may make network namespaces."""
    if os.geteuid() != 0 or not shutil.which("ip"):
        return False
    name = f"pitplan-{os.getpid()}-try"
    made = subprocess.run(["ip", "netns", "add", name], capture_output=True)
    subprocess.run(["ip", "netns", "del", name], capture_output=True)
    return made.returncode == 0


def ip(*words: str, inside: str = "") -> None:
    subprocess.run(["ip", *(["-n", inside] if inside else []), *words], check=True, capture_output=True, text=True)


class Host:
    """A host of a network.

    Attributes
    ----------
    space : str
        The network namespace.
    address : str
        Its address in the network.
    port : str
        The end of its link at the switch.
    """

    def __init__(self, space: str, address: str, port: str, switch: str) -> None:
        self.space, self.address, self.port, self.switch = space, address, port, switch

    def command(self, *words: object) -> list[str]:
        """Returns what runs a command on the host. Unlike `ip netns exec` it leaves /sys with its control groups, which Slurm reads."""
        return ["nsenter", f"--net=/run/netns/{self.space}", *(str(word) for word in words)]

    def start(self, *words: object, log: Path, **more: Any) -> subprocess.Popen[bytes]:
        """Starts a program on the host, whose output goes to the log."""
        with open(log, "ab") as opened:
            return subprocess.Popen(self.command(*words), stdout=opened, stderr=subprocess.STDOUT, **more)

    def run(self, *words: object, **more: Any) -> subprocess.CompletedProcess[str]:
        return subprocess.run(self.command(*words), capture_output=True, text=True, **more)

    def cut(self) -> None:
        """Cuts the host's link at the switch; what is sent is lost."""
        ip("link", "set", self.port, "down", inside=self.switch)

    def join(self) -> None:
        """Joins the link again."""
        ip("link", "set", self.port, "up", inside=self.switch)

    def die(self) -> None:
        """Kills all processes of the host at once, and cuts its link first, so that none says farewell."""
        self.cut()
        found = subprocess.run(["ip", "netns", "pids", self.space], capture_output=True, text=True, check=True)
        for process in found.stdout.split():
            os.kill(int(process), signal.SIGKILL)


class Network:
    """Hosts at one switch, from 10.77.0.1 on; a context, at whose end all of them are gone."""

    def __init__(self, count: int) -> None:
        self.prefix = f"pp{os.getpid() % 100000}"
        self.switch = f"{self.prefix}-{SWITCH}"
        self.hosts: list[Host] = []
        self.count = count
        self.closing = ExitStack()

    def __enter__(self) -> Network:
        with ExitStack() as failing:
            failing.callback(self.closing.close)
            self.add_space(self.switch)
            ip("link", "add", "bridge", "type", "bridge", inside=self.switch)
            ip("link", "set", "bridge", "up", inside=self.switch)
            for number in range(self.count):
                self.add_host(number)
            failing.pop_all()
        return self

    def __exit__(self, kind: Optional[type[BaseException]], value: Any, trace: Optional[TracebackType]) -> None:
        for host in self.hosts:
            host.die()
        self.closing.close()

    def add_space(self, space: str) -> None:
        ip("netns", "add", space)
        self.closing.callback(subprocess.run, ["ip", "netns", "del", space], capture_output=True)
        ip("link", "set", "lo", "up", inside=space)

    def add_host(self, number: int) -> None:
        space, port = f"{self.prefix}-{number}", f"port{number}"
        self.add_space(space)
        ip("link", "add", port, "type", "veth", "peer", "name", "eth0", "netns", space, inside=self.switch)
        ip("link", "set", port, "master", "bridge", inside=self.switch)
        self.add_address(Host(space, f"10.77.0.{number + 1}", port, self.switch))

    def add_address(self, host: Host) -> None:
        ip("address", "add", f"{host.address}/24", "dev", "eth0", inside=host.space)
        ip("link", "set", "eth0", "up", inside=host.space)
        ip("link", "set", host.port, "up", inside=self.switch)
        self.hosts.append(host)

    def add_slow_host(self, log: Path, milliseconds: int, loss: float) -> Host:
        """Adds a host whose link delivers each frame that much later, and loses that share of them, both ways."""
        number = len(self.hosts)
        host = Host(f"{self.prefix}-{number}", f"10.77.0.{number + 1}", f"port{number}", self.switch)
        self.add_space(host.space)
        taps = [f"{self.prefix}h{number}", f"{self.prefix}s{number}"]
        with open(log, "wb") as opened:
            words = [sys.executable, str(SLOW_LINK), *taps, str(milliseconds), str(loss)]
            link = subprocess.Popen(words, stdout=subprocess.PIPE, stderr=opened, text=True)
        self.closing.callback(link.wait)
        self.closing.callback(link.kill)
        assert link.stdout is not None and link.stdout.readline() == "ready\n", log.read_text()
        for tap, name, space in zip(taps, ("eth0", host.port), (host.space, self.switch)):
            ip("link", "set", tap, "netns", space)
            ip("link", "set", tap, "name", name, inside=space)
        ip("link", "set", host.port, "master", "bridge", inside=self.switch)
        self.add_address(host)
        return host
