"""Scenarios over Dask: processes of this machine, or the workers of a scheduler. Each task is one call of the library, or one run of the program.

Results are files in the shared folder, so a task receives a number and returns a status. If a worker dies, the scheduler gives its task to
another; if the program was killed, the task is repeated.
"""

from __future__ import annotations

from dataclasses import dataclass
from importlib import import_module
from pathlib import Path
from typing import Any, Iterator, Optional

from pitplan.core.libraries import load, release
from pitplan.core.processes import cores
from pitplan.core.progress import Progress
from pitplan.errors import PlanError
from pitplan.studies.scenarios import worker
from pitplan.studies.scenarios.store import Scenario

PACKAGE = "python3-distributed"
RETRIES = 2
# How many workers may die during a task before the scheduler counts the task as the cause.
DEATHS = 5
# Seconds until the first worker must have joined a scheduler.
PATIENCE = 60.0
# A server on this address can be reached from this machine only.
LOOPBACK = "127.0.0.1"
# The variables by which Dask takes a certificate for an address that begins with tls://.
CERTIFICATE = tuple(f"DASK_DISTRIBUTED__COMM__TLS__{part}" for part in ("CA_FILE", "CLIENT__CERT", "CLIENT__KEY"))


class Killed(Exception):
    """The program was killed, so another try may succeed."""


@dataclass(frozen=True)
class Where:
    """Where Dask solves.

    Attributes
    ----------
    address : str
        `local`, or the address of a scheduler, such as tcp://host:8786.
    workers : int, optional
        The number of processes of `local`; 0 solves in a thread of this one. Default: one for each processor.
    """

    address: str
    workers: Optional[int] = None

    @property
    def processes(self) -> int:
        return self.workers or cores()


def task(folder: str, number: int) -> worker.Outcome:
    """Solves a scenario on a worker. Raises Killed if another try may succeed."""
    outcome = worker.solve(folder, number)
    if not outcome.is_final:
        raise Killed(outcome.why)
    return outcome


def run(where: Where, folder: Path, scenarios: list[Scenario], progress: Progress) -> list[worker.Outcome]:
    """Solves scenarios; returns their outcomes in the order of completion. Raises MissingPackage without Dask, and PlanError if the scheduler cannot
    be reached, or its workers cannot read the folder or import pitplan."""
    distributed = load("distributed", PACKAGE, "scenarios --on local or a Dask scheduler")
    outcomes = []
    with progress.step(f"solving {len(scenarios):,} scenarios"), client_of(distributed, where) as client:
        for outcome in outcomes_of(distributed, client, folder.resolve(), scenarios):
            outcomes.append(outcome)
            if len(outcomes) % max(1, len(scenarios) // 10) == 0:
                progress.say(f" {len(outcomes):,}", end="")
    return outcomes


def client_of(distributed: Any, where: Where) -> Any:
    load("dask", "python3-dask", "scenarios over Dask").config.set({"distributed.scheduler.allowed-failures": DEATHS})
    if where.address == "local" and where.workers == 0:
        return distributed.Client(processes=False, n_workers=1, threads_per_worker=1, dashboard_address=None)
    if where.address == "local":
        cluster = {"n_workers": where.processes, "threads_per_worker": 1, "host": LOOPBACK}
        # By default the dashboard is an HTTP server on all addresses of the machine.
        pages = {"dashboard_address": f"{LOOPBACK}:0", "worker_dashboard_address": f"{LOOPBACK}:0"}
        return distributed.Client(processes=True, **cluster, **pages)
    try:
        client = distributed.Client(where.address, timeout="10s")
    except (OSError, ValueError) as error:
        raise PlanError(f"{where.address}: no Dask scheduler answers there: {error}") from error
    except TypeError as error:
        # Dask's answer to an address of TLS if its settings name no certificate.
        raise PlanError(
            f"{where.address}: this host has no certificate: set {', '.join(CERTIFICATE)} to the files of the certificate"
        ) from error
    try:
        demand_worker(distributed, client, where)
        demand_same_version(client)
    except BaseException:
        client.close()
        raise
    return client


def demand_worker(distributed: Any, client: Any, where: Where) -> None:
    """Raises PlanError if the scheduler has no worker and none joins in PATIENCE seconds."""
    try:
        client.wait_for_workers(1, timeout=PATIENCE)
    except (distributed.TimeoutError, TimeoutError) as error:
        why = f"the scheduler has had no worker for {PATIENCE:.0f} s"
        raise PlanError(f"{where.address}: {why}: start one on each host with dask-worker {where.address}") from error


def demand_same_version(client: Any) -> None:
    """Raises PlanError if a worker that has joined has another version of pitplan, or none."""

    def version() -> str:
        # A function within a function goes to the worker as code, so an older pitplan there need not have it.
        found: str = import_module("pitplan").__version__
        return found

    try:
        found: dict[str, str] = client.run(version)
    except ImportError as error:
        raise PlanError(no_layer(error)) from error
    for worker_address, theirs in sorted(found.items()):
        if theirs != release():
            why = f"its worker has pitplan {theirs}, and this host has {release()}: install one version on all hosts"
            raise PlanError(f"{worker_address}: {why}")


def no_layer(error: ImportError) -> str:
    return f"Dask's workers cannot import pitplan ({error}): start them with PYTHONPATH=python of pitshell"


def outcomes_of(distributed: Any, client: Any, folder: Path, scenarios: list[Scenario]) -> Iterator[worker.Outcome]:
    futures = {
        client.submit(
            task, str(folder), scenario.number, key=f"{scenario.key}-{number}", pure=False, retries=RETRIES
        ): scenario
        for number, scenario in enumerate(scenarios)
    }
    for future in distributed.as_completed(futures):
        if future.status == "finished":
            yield future.result()
        else:
            yield lost(future.exception(), futures[future])
        future.release()


def lost(error: BaseException, scenario: Scenario) -> worker.Outcome:
    """Returns the outcome of a scenario whose task failed. Raises PlanError if all tasks would fail."""
    if isinstance(error, ImportError):
        raise PlanError(no_layer(error))
    why = f"{error}" if isinstance(error, Killed) else f"{scenario.label}: its worker was lost: {error}"
    return worker.Outcome(scenario.number, worker.LOST, f"{why}: tried {RETRIES + 1} times", 0.0)
