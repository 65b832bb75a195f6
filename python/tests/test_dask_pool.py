"""What pitplan says if a Dask scheduler, its workers or the certificate are not as they must be."""

from types import SimpleNamespace

import pytest

import pitplan
from pitplan import PlanError
from pitplan.studies import dask_pool

pytest.importorskip("dask", reason="needs the Debian package python3-dask")
ADDRESS = "tls://mine-3:8786"


class Joined:
    """A client whose workers answer so."""

    def __init__(self, answer):
        self.answer, self.closed = answer, False

    def run(self, function):
        if isinstance(self.answer, Exception):
            raise self.answer
        return {worker: function() if answer is None else answer for worker, answer in self.answer.items()}

    def wait_for_workers(self, count, timeout):
        if self.answer == {}:
            raise TimeoutError(f"Only 0/{count} workers arrived after {timeout}")

    def close(self):
        self.closed = True


def client_of(answer):
    """The client of an address, whose Dask answers so."""

    def made(address, timeout):
        assert address == ADDRESS
        if isinstance(answer, Exception):
            raise answer
        return answer

    return dask_pool.client_of(SimpleNamespace(Client=made, TimeoutError=TimeoutError), dask_pool.Where(ADDRESS))


def test_workers_of_one_version_are_taken():
    joined = Joined({"tls://mine-4:1": None, "tls://mine-5:1": None})
    assert client_of(joined) is joined and not joined.closed


def test_a_scheduler_without_workers_is_named():
    joined = Joined({})
    said = f"{ADDRESS}: the scheduler has had no worker for 60 s: start one on each host with dask-worker {ADDRESS}"
    with pytest.raises(PlanError, match=said):
        client_of(joined)
    assert joined.closed


def test_a_worker_of_another_version_is_named():
    joined = Joined({"tls://mine-4:1": None, "tls://mine-5:1": "0.0.9"})
    said = f"tls://mine-5:1: its worker has pitplan 0.0.9, and this host has {pitplan.__version__}: install one version"
    with pytest.raises(PlanError, match=said):
        client_of(joined)
    assert joined.closed


def test_workers_without_pitplan_are_named_with_the_remedy():
    joined = Joined(ModuleNotFoundError("No module named 'pitplan'"))
    with pytest.raises(PlanError, match="workers cannot import pitplan .*: start them with PYTHONPATH=python"):
        client_of(joined)
    assert joined.closed


@pytest.mark.parametrize(
    "error, said",
    [
        (OSError("timed out"), "no Dask scheduler answers there: timed out"),
        (
            TypeError("TLS expects a `ssl_context`"),
            "this host has no certificate: set DASK_DISTRIBUTED__COMM__TLS__CA_FILE, ",
        ),
    ],
)
def test_what_keeps_from_connecting_is_named(error, said):
    with pytest.raises(PlanError, match=f"{ADDRESS}: {said}"):
        client_of(error)
