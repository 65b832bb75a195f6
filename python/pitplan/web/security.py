"""Who may use the application: the browser that was opened with the token, on this machine, or those that a reverse proxy lets in; from its own pages."""

from __future__ import annotations

import asyncio
import hmac
import secrets
import threading
from contextlib import suppress
from dataclasses import dataclass, field
from typing import Optional
from urllib.parse import urlsplit

from starlette.datastructures import Headers, MutableHeaders
from starlette.requests import Request
from starlette.responses import HTMLResponse, PlainTextResponse, RedirectResponse, Response
from starlette.types import ASGIApp, Message, Receive, Scope, Send

from minelib.ending import tell

# The page that takes the token of the address that pitplan prints.
ENTER = "/enter"
SAFE = ("GET", "HEAD")
# The bytes and seconds of a refused form that are taken.
MOST_DRAINED, DRAINING = 1 << 20, 1.0
FIRST_PAGE = (
    '<!doctype html><meta http-equiv="refresh" content="0; url=/"><title>pitplan</title><a href="/">Projects</a>'
)
# No script or style of a page is its own text, so text of a project can never become one.
POLICY = (
    "default-src 'none'; script-src 'self'; style-src 'self'; img-src 'self' data:; connect-src 'self'; frame-src 'self'; "
    "form-action 'self'; frame-ancestors 'none'; base-uri 'none'"
)
# Reports and 3D views hold their scripts and figures. A page in a sandbox has no cookie and reaches no address.
SANDBOX = (
    "sandbox allow-scripts; default-src 'none'; script-src 'unsafe-inline'; style-src 'unsafe-inline'; img-src data:"
)
HEADERS = {
    "Content-Security-Policy": POLICY,
    "X-Content-Type-Options": "nosniff",
    "Referrer-Policy": "same-origin",
    "Cache-Control": "no-store",
    "Cross-Origin-Opener-Policy": "same-origin",
    "Cross-Origin-Resource-Policy": "same-origin",
}


class EntryToken:
    """The random token of the address that opens the application. It is for one use: the next browser needs the next one."""

    def __init__(self) -> None:
        self.lock, self.token = threading.Lock(), secrets.token_urlsafe(32)

    def use(self, word: str) -> bool:
        """Returns whether a word is the token; if so there is another token from now on."""
        with self.lock:
            is_right = hmac.compare_digest(word.encode(), self.token.encode())
            if is_right:
                self.token = secrets.token_urlsafe(32)
            return is_right


@dataclass(frozen=True)
class Access:
    """The addresses of a server, and the secrets by which it knows browsers.

    Attributes
    ----------
    secret : str
        Random: the cookie of the browsers that have entered.
    key : EntryToken
        The token of the address, by which the browser of this machine enters.
    host : str
        The name, or the name and port, by which browsers reach the reverse proxy; empty: only this machine reaches the server, by the token.
    """

    port: int
    secret: str = field(default_factory=lambda: secrets.token_urlsafe(32))
    key: EntryToken = field(default_factory=EntryToken)
    host: str = ""

    @property
    def hosts(self) -> frozenset[str]:
        """The accepted values of the header Host; they exclude a name that an attacker points to this machine."""
        if self.host:
            return frozenset([self.host.lower()])
        return frozenset(f"{name}:{self.port}" for name in ("127.0.0.1", "localhost"))

    @property
    def cookie(self) -> str:
        """The name of the cookie, of this port alone."""
        return f"pitplan-serve-{self.port}"

    @property
    def address(self) -> str:
        if self.host:
            return f"https://{self.host}/"
        return f"http://127.0.0.1:{self.port}{ENTER}?token={self.token}"

    @property
    def token(self) -> str:
        """The token of the address, until it is used."""
        return self.key.token

    def refusal(self, request: Request) -> Optional[Response]:
        """Returns why a request is refused; None if it is not."""
        headers = request.headers
        if headers.get("host", "").lower() not in self.hosts:
            known = self.host or "127.0.0.1 and localhost"
            return refused(421, f"This server answers only to {known}.")
        if request.method not in SAFE and not self.is_own(headers):
            return refused(403, "This request comes from another site.")
        if not self.host and request.url.path != ENTER and not self.is_known(request):
            return refused(403, "Open the address that pitplan serve has printed: it holds the token of this server.")
        return None

    def is_own(self, headers: Headers) -> bool:
        """Returns whether a request that changes something comes from a page of the application."""
        origin = headers.get("origin")
        if origin is None:
            return headers.get("sec-fetch-site") == "same-origin"
        parts = urlsplit(origin)
        return parts.scheme == ("https" if self.host else "http") and parts.netloc == headers.get("host")

    def is_known(self, request: Request) -> bool:
        return hmac.compare_digest(request.cookies.get(self.cookie, "").encode(), self.secret.encode())

    def enter(self, request: Request) -> Response:
        """Sets the cookie of a browser that has the token, and shows the first page."""
        if self.is_known(request):
            return RedirectResponse("/", status_code=303)
        if not self.key.use(request.query_params.get("token", "")):
            why = "This token is not that of this server, or has been used: open the address that it has printed last."
            return refused(403, why)
        tell(f"another browser enters by {self.address}")
        # A file of the user opened this address. After a redirect the browser would not send the cookie, which is of this site alone.
        response = HTMLResponse(FIRST_PAGE)
        response.set_cookie(self.cookie, self.secret, httponly=True, samesite="strict", path="/")
        return response


def refused(status: int, why: str) -> Response:
    return PlainTextResponse(f"{why}\n", status_code=status)


class Guard:
    """Lets requests to the application if their access is granted, and sets the headers of all responses."""

    def __init__(self, app: ASGIApp, access: Access) -> None:
        self.app, self.access = app, access

    async def __call__(self, scope: Scope, receive: Receive, send: Send) -> None:
        if scope["type"] != "http":
            # There are no web sockets. The server's own start and end pass.
            if scope["type"] == "lifespan":
                await self.app(scope, receive, send)
            return

        async def with_headers(message: Message) -> None:
            if message["type"] == "http.response.start":
                headers = MutableHeaders(scope=message)
                for name, value in HEADERS.items():
                    headers.setdefault(name, value)
            await send(message)

        refusal = self.access.refusal(Request(scope))
        if refusal:
            await drain(receive)
        await (refusal or self.app)(scope, receive, with_headers)


async def drain(receive: Receive) -> None:
    """Takes what comes at once of a short form: a proxy that still sends a form when the connection ends shows no answer."""
    with suppress(TimeoutError):
        async with asyncio.timeout(DRAINING):
            left = MOST_DRAINED
            while left > 0:
                message = await receive()
                left -= len(message.get("body", b""))
                if not message.get("more_body"):
                    return
