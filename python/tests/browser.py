"""A headless Chromium that is driven as a user drives it: by clicks at places, and asked what it shows; over its debugging protocol."""

import asyncio
import base64
import json
import shutil
import subprocess
import time

import pytest

CHROMIUM = shutil.which("chromium")
FLAGS = [
    *("--headless", "--no-sandbox", "--remote-debugging-port=0", "--use-gl=angle", "--use-angle=swiftshader"),
    *("--enable-unsafe-swiftshader", "--force-device-scale-factor=1", "--no-first-run"),
]
SECONDS = 60
needs_chromium = pytest.mark.skipif(CHROMIUM is None, reason="needs the Debian package chromium")


class Browser:
    """One page at a time, of so many pixels."""

    def __init__(self, place, wide=900, high=600):
        websocket = pytest.importorskip("tornado.websocket", reason="needs the Debian package python3-tornado")
        self.loop, self.place, self.count = asyncio.new_event_loop(), place, 0
        self.events = []
        flags = [*FLAGS, f"--user-data-dir={place}", f"--window-size={wide},{high}", "about:blank"]
        self.process = subprocess.Popen([CHROMIUM, *flags], stdout=subprocess.DEVNULL, stderr=subprocess.DEVNULL)
        self.socket = self.loop.run_until_complete(self.connected(websocket))
        page = self.call("Target.createTarget", url="about:blank")["targetId"]
        self.session = self.call("Target.attachToTarget", targetId=page, flatten=True)["sessionId"]
        self.call("Emulation.setDeviceMetricsOverride", width=wide, height=high, deviceScaleFactor=1, mobile=False)

    session = None

    async def connected(self, websocket):
        return await websocket.websocket_connect(self.address(), max_message_size=1 << 28)

    async def closed(self):
        """The socket closes in its loop: another test may have left the thread without one."""
        self.socket.close()

    def address(self):
        """Where it listens, once it does."""
        port = self.place / "DevToolsActivePort"
        for _ in range(10 * SECONDS):
            lines = port.read_text().split() if port.is_file() else []
            if len(lines) == 2:
                return f"ws://127.0.0.1:{lines[0]}{lines[1]}"
            time.sleep(0.1)
        raise AssertionError("Chromium does not listen")

    def call(self, method, **given):
        """What it answers, once it has done what it was asked."""
        self.count += 1
        words = {"id": self.count, "method": method, "params": given}
        return self.loop.run_until_complete(
            self.answered(words | ({"sessionId": self.session} if self.session else {}))
        )

    async def answered(self, words):
        await self.socket.write_message(json.dumps(words))
        while True:
            message = json.loads(await asyncio.wait_for(self.socket.read_message(), SECONDS))
            if message.get("id") == words["id"]:
                assert "error" not in message, message
                return message["result"]
            self.events.append(message)

    def open(self, page, state="", ready="document.body && document.body.dataset.faces"):
        """Opens a page at a state of its address, and waits until it is ready: by default, until it has drawn."""
        self.call("Page.navigate", url="about:blank")
        self.call("Page.navigate", url=f"file://{page}#{state}")
        for _ in range(10 * SECONDS):
            if self.ask(ready):
                return
            time.sleep(0.1)
        raise AssertionError(f"nothing is drawn: {self.ask('document.body.innerText')}")

    def console(self):
        """Returns the entries of the console since this was first called: errors, missing files and what scripts print."""
        for domain in ("Log", "Runtime"):
            self.call(f"{domain}.enable")
        kinds = {
            "Log.entryAdded": "entry",
            "Runtime.exceptionThrown": "exceptionDetails",
            "Runtime.consoleAPICalled": "args",
        }
        found = [it["params"][kinds[it["method"]]] for it in self.events if it.get("method") in kinds]
        self.events.clear()
        return found

    def ask(self, script):
        """What a line of JavaScript is worth in the page."""
        found = self.call("Runtime.evaluate", expression=script, returnByValue=True, awaitPromise=True)
        assert "exceptionDetails" not in found, found
        return found["result"].get("value")

    def click(self, x, y):
        for kind in ("mousePressed", "mouseReleased"):
            self.call("Input.dispatchMouseEvent", type=kind, x=x, y=y, button="left", clickCount=1)

    def choose(self, name, value):
        """Sets a slider or a choice, as a user does."""
        kind = "checked" if isinstance(value, bool) else "value"
        it = f"document.getElementById('{name}')"
        self.ask(f"{it}.{kind} = {json.dumps(value)}; {it}.dispatchEvent(new Event('input'))")

    def text(self, name):
        return self.ask(f"document.getElementById('{name}').textContent")

    def picture(self, path):
        """The whole page as a PNG."""
        path.write_bytes(base64.b64decode(self.call("Page.captureScreenshot", format="png")["data"]))

    def end(self):
        self.loop.run_until_complete(self.closed())
        self.process.terminate()
        self.process.wait(timeout=SECONDS)
        self.loop.close()
