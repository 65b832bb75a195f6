"""Where Dask's processes of this machine listen."""

import os

import pytest

from pitplan.studies import dask_pool


@pytest.mark.filterwarnings("ignore:make_current is deprecated:DeprecationWarning")
def test_dask_listens_on_this_machine_alone():
    distributed = pytest.importorskip("distributed", reason="needs the Debian package python3-distributed")
    psutil = pytest.importorskip("psutil")
    own = psutil.Process()
    before = {socket.laddr for socket in own.connections("inet") if socket.status == psutil.CONN_LISTEN}
    with dask_pool.client_of(distributed, dask_pool.Where("local", 1)) as client:
        processes = [own, *own.children(recursive=True)]
        sockets = [
            (process.pid, socket)
            for process in processes
            for socket in process.connections("inet")
            if socket.status == psutil.CONN_LISTEN
        ]
        listening = {pid: {socket.laddr for owner, socket in sockets if owner == pid} - before for pid, _ in sockets}
        workers = set(client.run(os.getpid).values())
    # The scheduler and a worker listen for each other and have a page each.
    assert all(len(listening[pid]) >= 2 for pid in {own.pid, *workers})
    assert {address.ip for addresses in listening.values() for address in addresses} == {"127.0.0.1"}
