"""The browser application without a browser: who enters, and how its jobs end."""

import time

from starlette.testclient import TestClient

from pitplan.web.jobs import Jobs
from pitplan.web.server import make_app

PORT = 8123
OWN = {"origin": f"http://127.0.0.1:{PORT}"}


def client_of(root, access):
    """A browser that has not entered."""
    found = TestClient(make_app(root, access), base_url=f"http://127.0.0.1:{PORT}")
    found.follow_redirects = False
    return found


def entered(root, access):
    """A browser that has entered."""
    found = client_of(root, access)
    assert found.get(f"/enter?token={access.token}").status_code == 200
    return found


def ended(root, number, seconds=60):
    """Waits until a job has ended; gives it."""
    found, until = Jobs(root), time.monotonic() + seconds
    while time.monotonic() < until:
        found.pump()
        job = found.read(number)
        if job.has_ended:
            return job
        time.sleep(0.05)
    raise AssertionError(f"{job} goes on: {found.log(number)}")
