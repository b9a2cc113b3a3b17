"""A browser without a window, by the DevTools protocol over a pipe."""

import contextlib
import json
import os
import select
import subprocess
import tempfile
import time
from collections.abc import Iterator
from pathlib import Path

QUIET = ["--headless=new", "--no-sandbox", "--disable-gpu", "--hide-scrollbars", "--no-first-run", "--disable-extensions"]
MOST_SECONDS = 240


class Silent(Exception):
    """The browser said nothing for too long, or ended."""


class Browser:
    """A browser that runs. Its messages end with a zero byte."""

    def __init__(self, to: int, of: int) -> None:
        self.to, self.of = to, of
        self.rest = b""
        self.count = 0
        self.end = time.monotonic() + MOST_SECONDS

    def message(self) -> dict:
        while b"\0" not in self.rest:
            left = max(self.end - time.monotonic(), 0)
            got = os.read(self.of, 1 << 20) if select.select([self.of], [], [], left)[0] else b""
            if not got:
                raise Silent
            self.rest += got
        first, self.rest = self.rest.split(b"\0", 1)
        return json.loads(first)

    def call(self, method: str, session: str = "", **params: object) -> dict:
        """The result of a method of the protocol."""
        self.count += 1
        asked = {"id": self.count, "method": method, "params": params} | ({"sessionId": session} if session else {})
        os.write(self.to, json.dumps(asked).encode() + b"\0")
        while True:
            said = self.message()
            if said.get("id") == self.count:
                return said.get("result", {})

    def open(self, page: Path, width: int, height: int, place: str = "") -> str:
        """Opens a page at a place in a window of a size, and returns its session."""
        target = self.call("Target.createTarget", url="about:blank")["targetId"]
        session = self.call("Target.attachToTarget", targetId=target, flatten=True)["sessionId"]
        self.call("Emulation.setDeviceMetricsOverride", session, width=width, height=height, deviceScaleFactor=1, mobile=False)
        self.call("Page.enable", session)
        self.call("Page.navigate", session, url=f"file://{page}{place}")
        while self.message().get("method") != "Page.loadEventFired":
            pass
        return session

    def value(self, session: str, expression: str) -> object:
        """The value of an expression, or of the promise that it is."""
        found = self.call("Runtime.evaluate", session, expression=expression, awaitPromise=True, returnByValue=True)
        return found.get("result", {}).get("value")

    def close(self, running: subprocess.Popen) -> None:
        """Ends the browser, by force if it does not end."""
        self.end = time.monotonic() + 10
        with contextlib.suppress(Silent, OSError):
            self.call("Browser.close")
        try:
            running.wait(10)
        except subprocess.TimeoutExpired:
            running.kill()


@contextlib.contextmanager
def browser() -> Iterator[Browser]:
    into, to = os.pipe()
    of, out = os.pipe()
    with tempfile.TemporaryDirectory(ignore_cleanup_errors=True) as profile:
        words = ["chromium", *QUIET, "--remote-debugging-pipe", f"--user-data-dir={profile}"]
        with subprocess.Popen(["sh", "-c", f'exec "$@" 3<&{into} 4>&{out}', "sh", *words], pass_fds=(into, out), stderr=subprocess.DEVNULL) as running:
            os.close(into)
            os.close(out)
            made = Browser(to, of)
            try:
                yield made
            finally:
                made.close(running)
                os.close(to)
                os.close(of)
