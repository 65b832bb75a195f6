"""Scenarios over a Dask scheduler whose workers are on other hosts, which share a folder. `make thorough` tries it, as root.

The hosts are network namespaces (helpers/hosts.py). Each table must be byte for byte that of scenarios solved one after the other.
"""

import os
import shutil
import subprocess
import time

import pytest
from conftest import ROOT
from helpers.dask_hosts import LAYER, Cluster, certificate_in
from helpers.host_scenarios import MODELS, PITPLAN, TABLES, answers, make_mine, pitplan, wait_until
from helpers.hosts import Network, can_make_hosts
from helpers.random_tests import PROFILE, THOROUGH
from helpers.slurm_hosts import Slurm

pytestmark = pytest.mark.skipif(PROFILE != THOROUGH, reason="make thorough tries several hosts")


@pytest.fixture(scope="module")
def mine(tmp_path_factory):
    if not can_make_hosts():
        pytest.skip("needs root, and network namespaces of the Debian package iproute2")
    return make_mine(tmp_path_factory.mktemp("mine"))


@pytest.fixture
def network(mine):
    with Network(3) as made:
        yield made


@pytest.fixture
def scheduler(network, mine, tmp_path):
    pytest.importorskip("distributed", reason="needs the Debian package python3-distributed")
    return Cluster(network, tmp_path, mine)


@pytest.fixture
def cluster(scheduler, network):
    """A scheduler with two workers, each on a host of its own."""
    for host in network.hosts[1:]:
        scheduler.add_worker(host)
    return scheduler


def ends_with_the_same_tables(run, cluster, mine, out):
    assert run.wait(timeout=300) == 0, cluster.said()
    assert mine.same_tables(out) == TABLES


def after_a_third(out, log):
    wait_until(lambda: answers(out) >= MODELS // 3, 120, log)


def test_workers_on_two_other_hosts_give_the_tables_of_one_process(cluster, mine, tmp_path):
    run = cluster.start(tmp_path / "out")
    ends_with_the_same_tables(run, cluster, mine, tmp_path / "out")


def test_a_sensitivity_on_two_other_hosts_gives_the_table_of_one_process(cluster, mine, tmp_path):
    project = mine.project.with_name("sensitivity.toml")
    project.write_text(f'{mine.project.read_text()}[sensitivity]\nchanges = [0.1]\nparameters = ["price", "slopes"]\n')
    alone = pitplan("sensitivity", project, "--out", tmp_path / "alone", "--no-figures", "--quiet")
    assert alone.returncode == 0, alone.stderr
    words = ["sensitivity", project, "--out", tmp_path / "out", "--on", cluster.address, "--no-figures"]
    run = cluster.first.run(*PITPLAN, *words, env=cluster.environment)
    assert run.returncode == 0, run.stderr
    tables = [tmp_path / out / "tables" / "sensitivity.csv" for out in ("alone", "out")]
    assert tables[0].read_bytes() == tables[1].read_bytes()
    assert len(tables[0].read_text().splitlines()) == 4


def test_the_scenarios_of_a_host_that_dies_go_to_another(cluster, network, mine, tmp_path):
    run = cluster.start(tmp_path / "out")
    after_a_third(tmp_path / "out", cluster.log)
    network.hosts[2].die()
    ends_with_the_same_tables(run, cluster, mine, tmp_path / "out")
    assert "Remove worker" in cluster.log.read_text()


def test_links_that_are_cut_and_joined_again_lose_nothing(cluster, network, mine, tmp_path):
    run = cluster.start(tmp_path / "out")
    after_a_third(tmp_path / "out", cluster.log)
    for host in network.hosts[1:]:
        host.cut()
    time.sleep(5)
    assert run.poll() is None
    for host in network.hosts[1:]:
        host.join()
    ends_with_the_same_tables(run, cluster, mine, tmp_path / "out")


def test_a_link_with_200_ms_and_5_per_cent_loss_changes_no_table(scheduler, network, mine, tmp_path):
    scheduler.add_worker(network.add_slow_host(tmp_path / "link.log", milliseconds=200, loss=0.05))
    run = scheduler.start(tmp_path / "out")
    ends_with_the_same_tables(run, scheduler, mine, tmp_path / "out")


def test_a_worker_with_another_version_is_refused_by_name(scheduler, network, tmp_path):
    older = shutil.copytree(ROOT / "python", tmp_path / "older", ignore=shutil.ignore_patterns("tests", "__pycache__"))
    file = older / "pitplan" / "__init__.py"
    text = file.read_text(encoding="utf-8")
    (line,) = [line for line in text.splitlines() if line.startswith("__version__")]
    file.write_text(text.replace(line, '__version__ = "0.0.9"'), encoding="utf-8")
    scheduler.add_worker(network.hosts[1], PYTHONPATH=str(older))
    assert scheduler.start(tmp_path / "out").wait(timeout=120) != 0
    said = scheduler.said()
    assert f"{network.hosts[1].address}:" in said and "its worker has pitplan 0.0.9, and this host has" in said, said
    assert answers(tmp_path / "out") == 0


def test_a_shared_folder_that_is_full_is_named_and_no_table_is_written(cluster, tmp_path):
    shared = tmp_path / "shared"
    shared.mkdir()
    subprocess.run(["mount", "-t", "tmpfs", "-o", "size=1m", "tmpfs", shared], check=True)
    try:
        assert cluster.start(shared / "out").wait(timeout=120) != 0
        assert "No space left on device" in cluster.said() and "Traceback" not in cluster.said(), cluster.said()
        assert not list(shared.rglob("*.csv"))
    finally:
        subprocess.run(["umount", "-l", shared], check=True)


def test_with_tls_only_holders_of_the_certificate_connect(network, mine, tmp_path):
    cluster = Cluster(network, tmp_path, mine, **certificate_in(tmp_path))
    cluster.add_worker(network.hosts[1])
    run = cluster.start(tmp_path / "out")
    ends_with_the_same_tables(run, cluster, mine, tmp_path / "out")
    words = [*PITPLAN, "scenarios", mine.project, "--out", tmp_path / "stranger", "--no-figures", "--on"]
    answered = {
        "tls": "this host has no certificate: set DASK_DISTRIBUTED__COMM__TLS__CA_FILE",
        "tcp": "no Dask scheduler answers",
    }
    for scheme, said in answered.items():
        address = cluster.address.replace("tls", scheme)
        stranger = network.hosts[2].run(*words, address, env={**os.environ, **LAYER})
        assert stranger.returncode == 1 and f"pitplan: {address}: {said}" in stranger.stderr, stranger.stderr


@pytest.fixture
def slurm(network, tmp_path):
    if not all(shutil.which(name) for name in ("slurmctld", "slurmd", "munged")):
        pytest.skip("needs the Debian packages slurm-wlm and munge")
    return Slurm(network, tmp_path)


def submit(slurm, mine, out):
    """Submits the scenarios from the first host."""
    ran = pitplan("scenarios", mine.project, "--out", out, "--on", "slurm", "--quiet")
    assert ran.returncode == 0, ran.stderr
    started = slurm.first.run("sh", ran.stdout.strip(), env=slurm.environment)
    assert started.returncode == 0, started.stderr


def ends_by_slurm_with_the_same_tables(slurm, mine, out):
    wait_until(slurm.is_empty, 600, slurm.log)
    assert mine.same_tables(out) == TABLES, (out / "gather.log").read_text()


def test_a_slurm_array_on_two_nodes_gives_the_tables_of_one_process(slurm, mine, tmp_path):
    submit(slurm, mine, tmp_path / "out")
    ends_by_slurm_with_the_same_tables(slurm, mine, tmp_path / "out")
    assert slurm.nodes_of_tasks() == set(slurm.nodes)


def test_a_drained_node_leaves_its_scenarios_to_the_other(slurm, mine, tmp_path):
    submit(slurm, mine, tmp_path / "out")
    after_a_third(tmp_path / "out", slurm.log)
    slurm.drain("node2")
    ends_by_slurm_with_the_same_tables(slurm, mine, tmp_path / "out")
    assert any(state.startswith("drain") for state in slurm.states())


def test_the_tasks_of_a_node_that_dies_are_run_again(slurm, mine, tmp_path):
    submit(slurm, mine, tmp_path / "out")
    after_a_third(tmp_path / "out", slurm.log)
    slurm.nodes["node2"].die()
    ends_by_slurm_with_the_same_tables(slurm, mine, tmp_path / "out")
    assert any(state.startswith("down") for state in slurm.states())
