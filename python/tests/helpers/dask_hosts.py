"""A Dask scheduler on the first host of a test's network, and workers on others."""

from __future__ import annotations

import os
import subprocess
from pathlib import Path

from conftest import ROOT
from helpers.host_scenarios import PITPLAN, Mine, wait_until
from helpers.hosts import Host, Network

PORT = 8786
LAYER = {"PYTHONPATH": str(ROOT / "python")}
OWN_PAGES = ["--dashboard-address", "127.0.0.1:0"]


def certificate_in(folder: Path) -> dict[str, str]:
    """Makes a certificate, and returns Dask's settings by which scheduler, workers and clients require it of each other."""
    key, made = folder / "key.pem", folder / "certificate.pem"
    words = ["openssl", "req", "-x509", "-newkey", "rsa:2048", "-nodes", "-days", "1", "-subj", "/CN=pitplan"]
    subprocess.run([*words, "-keyout", key, "-out", made], check=True, capture_output=True)
    tls = "DASK_DISTRIBUTED__COMM__TLS"
    files = {"CERT": made, "KEY": key}
    parts = {
        f"{tls}__{part}__{kind}": f"{file}"
        for part in ("SCHEDULER", "WORKER", "CLIENT")
        for kind, file in files.items()
    }
    return {f"{tls}__CA_FILE": f"{made}", "DASK_DISTRIBUTED__COMM__REQUIRE_ENCRYPTION": "true", **parts}


class Cluster:
    """A scheduler, and what starts workers and scenarios.

    Attributes
    ----------
    address : str
        That of the scheduler.
    log : Path
        What the scheduler says.
    """

    def __init__(self, network: Network, folder: Path, mine: Mine, **security: str) -> None:
        self.folder, self.mine, self.first = folder, mine, network.hosts[0]
        self.environment = {**os.environ, **LAYER, **security}
        self.scheme = "tls" if security else "tcp"
        self.address = f"{self.scheme}://{self.first.address}:{PORT}"
        self.log = folder / "scheduler.log"
        words = ["dask-scheduler", "--host", f"{self.scheme}://{self.first.address}", "--port", PORT, *OWN_PAGES]
        self.first.start(*words, log=self.log, env=self.environment)
        wait_until(lambda: "Scheduler at" in self.log.read_text(), 30, self.log)

    def add_worker(self, host: Host, **more: str) -> None:
        """Starts a worker of one thread on a host, with further variables of its environment."""
        log = self.folder / f"{host.space}.log"
        words = [
            "dask-worker",
            self.address,
            "--host",
            f"{self.scheme}://{host.address}",
            "--nthreads",
            "1",
            "--no-nanny",
        ]
        folder = ["--local-directory", self.folder / host.space]
        host.start(*words, *OWN_PAGES, *folder, log=log, env={**self.environment, **more})
        wait_until(lambda: "Registered to" in log.read_text(), 60, log)

    def start(self, out: Path) -> subprocess.Popen[bytes]:
        """Starts the scenarios on the first host."""
        words = [*PITPLAN, "scenarios", self.mine.project, "--out", out, "--on", self.address, "--no-figures"]
        return self.first.start(*words, log=self.folder / "run.log", env=self.environment)

    def said(self) -> str:
        """What the scenarios said."""
        return (self.folder / "run.log").read_text()
