"""The server of `pitplan serve`."""

from __future__ import annotations

import asyncio
import errno
import html
import logging
import resource
import socket
import stat
import tempfile
import threading
import time
import webbrowser
from collections.abc import AsyncIterator, Iterator
from contextlib import asynccontextmanager, closing, contextmanager, suppress
from dataclasses import dataclass
from pathlib import Path
from typing import Any, Optional

from starlette.applications import Starlette
from starlette.concurrency import run_in_threadpool
from starlette.middleware import Middleware
from starlette.routing import Route

from minelib.ending import tell
from pitplan.core import input_places
from pitplan.core.libraries import load
from pitplan.errors import PlanError

from .block_pages import AreaPages, BlockPages
from .edit_pages import EditPages
from .import_pages import ImportPages
from .jobs import Jobs
from .output_pages import OutputPages
from .pages import Pages
from .security import ENTER, Access, Guard
from .workspace import Workspace

HOST = "127.0.0.1"
# Seconds in which a connection must send its first request. The most requests that are answered at a time; others get the status 503.
PATIENCE, MOST_REQUESTS = 20.0, 200
# Seconds in which the same message is logged once.
SPARING = 60.0
# How often the queue is read, in seconds.
PACE = 0.5


@dataclass(frozen=True)
class Proxy:
    """A reverse proxy, which has TLS and passwords, and before which the server stands.

    Attributes
    ----------
    host : str
        The name, or the name and port, by which browsers reach it.
    socket : Path
        The Unix socket by which it reaches the server.
    """

    host: str
    socket: Path


def make_app(root: Path, access: Access, version: str = "") -> Starlette:
    jobs = Jobs(root)
    pages = Pages(Workspace(root), jobs, version)

    @asynccontextmanager
    async def lifespan(app: Starlette) -> AsyncIterator[None]:
        task = asyncio.create_task(pumping(jobs))
        yield
        task.cancel()
        with suppress(asyncio.CancelledError):
            await task

    entrance = [] if access.host else [Route(ENTER, pages.answering(access.enter))]
    blocks = BlockPages(pages)
    setup = [*ImportPages(pages).routes, *EditPages(pages).routes, *AreaPages(pages, blocks).routes]
    routes = [*entrance, *pages.routes, *setup, *blocks.routes, *OutputPages(pages).routes]
    return Starlette(routes=routes, middleware=[Middleware(Guard, access=access)], lifespan=lifespan)


async def pumping(jobs: Jobs) -> None:
    """Starts each job of the queue when it is its turn."""
    while True:
        with suppress(OSError):
            await run_in_threadpool(jobs.pump)
        await asyncio.sleep(PACE)


def listening(port: int) -> socket.socket:
    """Returns a socket that listens on this machine alone. Raises PlanError if the port is taken."""
    found = socket.socket(socket.AF_INET, socket.SOCK_STREAM)
    found.setsockopt(socket.SOL_SOCKET, socket.SO_REUSEADDR, 1)
    return bound(found, (HOST, port), f"--port {port}", "give another port, or 0 for any free one")


def listening_at(path: Path) -> socket.socket:
    """Returns a Unix socket that listens for this user and the group of the socket. Raises PlanError if there is another server or file."""
    with suppress(OSError), socket.socket(socket.AF_UNIX, socket.SOCK_STREAM) as probe:
        if stat.S_ISSOCK(path.stat().st_mode) and probe.connect_ex(str(path)) == errno.ECONNREFUSED:
            # The socket of a server that has ended.
            path.unlink()
    remedy = "give another file, in a folder that you may write"
    found = bound(socket.socket(socket.AF_UNIX, socket.SOCK_STREAM), str(path), f"--socket {path}", remedy)
    path.chmod(0o660)
    return found


def bound(found: socket.socket, address: Any, option: str, remedy: str) -> socket.socket:
    """Returns a socket that listens at an address. Raises PlanError, with the option and the remedy, if it cannot."""
    try:
        found.bind(address)
        # From now on connections wait until the server takes them; the address is printed before it does.
        found.listen(socket.SOMAXCONN)
    except OSError as error:
        found.close()
        raise PlanError(f"{option}: cannot listen there ({error.strerror or error}): {remedy}") from error
    return found


class Sparing(logging.Filter):
    """Lets the same words be logged once in SPARING seconds, in one line, so that no client fills a disk."""

    def __init__(self) -> None:
        super().__init__()
        self.last: dict[str, float] = {}

    def filter(self, record: logging.LogRecord) -> bool:
        words, now = record.getMessage()[:60], time.monotonic()
        self.last = {key: at for key, at in self.last.items() if now - at < SPARING}
        is_new = words not in self.last
        self.last.setdefault(words, now)
        record.exc_info = record.exc_text = record.stack_info = None
        record.msg, record.args = record.getMessage().splitlines()[0][:300] if record.getMessage() else "", None
        return is_new


def impatient(protocol: Any) -> Any:
    """Returns a protocol of uvicorn whose connections close if no request has come after PATIENCE seconds."""

    class Impatient(protocol):  # type: ignore[misc]
        def connection_made(self, transport: Any) -> None:
            super().connection_made(transport)
            self.loop.call_later(PATIENCE, self.close_idle)

        def close_idle(self) -> None:
            if self.cycle is None:
                self.transport.abort()

    return Impatient


@contextmanager
def opening(address: str) -> Iterator[Path]:
    """Makes a page that leads to the address, which only this user may read: arguments of a browser are seen by all users of a machine."""
    with tempfile.TemporaryDirectory(prefix="pitplan-serve-") as folder:
        page = Path(folder) / "open.html"
        page.write_text(f'<!doctype html><meta http-equiv="refresh" content="0; url={html.escape(address)}">\n')
        page.chmod(0o600)
        yield page


def raise_limit_of_files() -> None:
    """Lets as many connections be open as the system allows this user."""
    _, most = resource.getrlimit(resource.RLIMIT_NOFILE)
    with suppress(OSError, ValueError):
        resource.setrlimit(resource.RLIMIT_NOFILE, (most, most))


def serve(
    folder: Path, port: int, version: str, proxy: Optional[Proxy], *, opens: bool = True, inputs: tuple[Path, ...] = ()
) -> None:
    """Serves the projects of a folder until it is interrupted, at a port, 0 for any free one, or behind a proxy. With `opens` the browser opens if
    there is no proxy. `inputs` are further folders in which inputs of projects may lie. Raises PlanError if a folder does not exist or the port is
    taken, and MissingPackage without uvicorn."""
    uvicorn = load("uvicorn", "python3-uvicorn", "serve")
    from uvicorn.protocols.http.h11_impl import H11Protocol

    root = folder.resolve()
    if not root.is_dir():
        raise PlanError(f"{folder}: is no folder: give one with projects, or an empty one")
    for place in inputs:
        if not place.is_dir():
            raise PlanError(f"--inputs {place}: is no folder: give one with inputs of projects")
    with closing(listening_at(proxy.socket) if proxy else listening(port)) as listener:
        access = Access(0, host=proxy.host) if proxy else Access(listener.getsockname()[1])
        input_places.confine([root, *inputs])
        raise_limit_of_files()
        config = uvicorn.Config(
            make_app(root, access, version),
            log_level="warning",
            lifespan="on",
            server_header=False,
            http=impatient(H11Protocol),
            ws="none",
            limit_concurrency=MOST_REQUESTS,
        )
        for name in ("asyncio", "uvicorn.error"):
            logging.getLogger(name).filters = [Sparing()]
        # What is printed to standard output is held back until the end.
        tell(f"pitplan serves {root}\n{access.address}\nCtrl-C ends it; jobs go on.")
        with opening(access.address) as page:
            if opens and not proxy:
                threading.Timer(0.5, webbrowser.open, (page.as_uri(),)).start()
            try:
                uvicorn.Server(config).run(sockets=[listener])
            finally:
                if proxy:
                    # Another server takes the place of the socket as soon as this one does not listen.
                    proxy.socket.unlink(missing_ok=True)
