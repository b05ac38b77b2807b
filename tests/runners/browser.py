"""A headless Chromium that is driven over its debugging port, by the standard library alone.

The port speaks JSON over a WebSocket (RFC 6455): a handshake over HTTP, then frames of text. A page's answers, and what it
writes on its console or throws, come back as messages.
"""
from __future__ import annotations

import base64
import json
import os
import shutil
import socket
import struct
import subprocess
import tempfile
import time
from pathlib import Path
from typing import Any

from tests.runners.running import SECONDS

NAMES = ("chromium", "chromium-browser", "google-chrome")
WAIT = SECONDS


class BrowserFault(AssertionError):
    """The browser, or a page in it, did not do what was asked."""


def find_browser() -> str | None:
    """The path of a browser, or None."""
    return next(filter(None, map(shutil.which, NAMES)), None)


class WebSocket:
    """A client's side of a WebSocket: frames of text."""

    def __init__(self, host: str, port: int, path: str) -> None:
        self.socket = socket.create_connection((host, port), timeout=WAIT)
        key = base64.b64encode(os.urandom(16)).decode()
        request = [f"GET {path} HTTP/1.1", f"Host: {host}:{port}", "Upgrade: websocket", "Connection: Upgrade",
                   f"Sec-WebSocket-Key: {key}", "Sec-WebSocket-Version: 13", "", ""]
        self.socket.sendall("\r\n".join(request).encode())
        self.rest = b""
        while b"\r\n\r\n" not in self.rest:
            self.rest += self.socket.recv(4096)
        head, self.rest = self.rest.split(b"\r\n\r\n", 1)
        if b" 101 " not in head.split(b"\r\n")[0]:
            raise BrowserFault(head)

    def send(self, text: str) -> None:
        data, mask = text.encode(), os.urandom(4)
        size = len(data)
        head = bytes([0x81, 0x80 | size]) if size < 126 else struct.pack(">BBH", 0x81, 0xFE, size) if size < 65536 else \
            struct.pack(">BBQ", 0x81, 0xFF, size)
        key = (mask * (size // 4 + 1))[:size]
        masked = (int.from_bytes(data, "big") ^ int.from_bytes(key, "big")).to_bytes(size, "big")
        self.socket.sendall(head + mask + masked)

    def taken(self, count: int) -> bytes:
        parts, size = [self.rest], len(self.rest)
        while size < count:
            part = self.socket.recv(max(4096, count - size))
            if not part:
                raise BrowserFault("the browser closed the connection")
            parts.append(part)
            size += len(part)
        data = b"".join(parts)
        self.rest = data[count:]
        return data[:count]

    def receive(self) -> str:
        """The next text; frames that go on are put together, and those of control are passed over."""
        text = b""
        while True:
            first, second = self.taken(2)
            size = second & 127
            if size > 125:
                size = int.from_bytes(self.taken(2 if size == 126 else 8), "big")
            data = self.taken(size)
            if first & 15 in (0, 1):
                text += data
                if first & 128:
                    return text.decode()

    def close(self) -> None:
        self.socket.close()


class Browser:
    """A browser with one page. `faults` are the texts of its console's errors and of what it threw."""

    def __init__(self, width: int = 1200, height: int = 800) -> None:
        self.folder = Path(tempfile.mkdtemp())
        words = [find_browser() or NAMES[0], "--headless=new", "--no-sandbox", "--disable-gpu", "--remote-debugging-port=0",
                 f"--user-data-dir={self.folder}/profile", f"--window-size={width},{height}", "--hide-scrollbars",
                 "--no-first-run", "--disable-dev-shm-usage", "--disable-background-networking",
                 "--disable-component-update", "about:blank"]
        self.process = subprocess.Popen(words, stdin=subprocess.DEVNULL, stdout=subprocess.DEVNULL, stderr=subprocess.DEVNULL)
        self.count = 0
        self.faults: list[str] = []
        self.requests: list[str] = []
        self.ended: list[str] = []
        self.socket: WebSocket | None = None
        self.session = ""
        try:
            self._begin(width, height)
        except (OSError, BrowserFault):
            self.close()
            raise

    def _begin(self, width: int, height: int) -> None:
        """Goes to the browser's one page."""
        self.socket = WebSocket("127.0.0.1", *self._port())
        target = next(one for one in self.call("Target.getTargets")["targetInfos"] if one["type"] == "page")
        self.session = self.call("Target.attachToTarget", targetId=target["targetId"], flatten=True)["sessionId"]
        for name in ("Page.enable", "Runtime.enable", "Log.enable", "Network.enable"):
            self.call(name)
        self.resize(width, height)
        self.call("Browser.setDownloadBehavior", behavior="allow", downloadPath=str(self.folder), eventsEnabled=True)

    def _port(self) -> tuple[int, str]:
        """The port and the path that the browser wrote into its folder."""
        name, end = self.folder / "profile" / "DevToolsActivePort", time.monotonic() + WAIT
        while time.monotonic() < end:
            if name.exists() and name.read_text().count("\n") == 1:
                port, path = name.read_text().split("\n")
                return int(port), path
            if self.process.poll() is not None:
                break
            time.sleep(0.05)
        raise BrowserFault("the browser did not begin")

    def call(self, method: str, **words: Any) -> dict[str, Any]:
        """The answer to a command; what comes before it is noted."""
        self.count += 1
        message: dict[str, Any] = {"id": self.count, "method": method, "params": words}
        if self.session and not method.startswith(("Target.", "Browser.")):
            message["sessionId"] = self.session
        self.socket.send(json.dumps(message))
        while True:
            got = json.loads(self.socket.receive())
            if got.get("id") == self.count:
                if "error" in got:
                    raise BrowserFault(f"{method}: {got['error']}")
                return got["result"]
            self.note(got.get("method"), got.get("params", {}))

    def note(self, method: str | None, words: dict[str, Any]) -> None:
        if method == "Runtime.exceptionThrown":
            details = words["exceptionDetails"]
            self.faults.append(details.get("exception", {}).get("description", details["text"]))
        elif method == "Runtime.consoleAPICalled" and words["type"] in ("error", "warning", "assert"):
            self.faults.append(str([one.get("value", one.get("description")) for one in words["args"]]))
        elif method == "Log.entryAdded" and words["entry"]["level"] in ("error", "warning"):
            self.faults.append(words["entry"]["text"])
        elif method == "Network.requestWillBeSent":
            self.requests.append(words["request"]["url"])
        elif method == "Browser.downloadProgress" and words["state"] == "completed":
            self.ended.append(words["guid"])

    def resize(self, width: int, height: int, ratio: float = 1) -> None:
        self.call("Emulation.setDeviceMetricsOverride", width=width, height=height, deviceScaleFactor=ratio, mobile=False)

    def open(self, path: str | Path) -> float:
        """Opens a page and waits until its picture is drawn; gives the seconds that took."""
        self.requests.clear()
        begun = time.monotonic()
        self.call("Page.navigate", url=Path(path).resolve().as_uri())
        self.wait("window.paverView && window.paverView.drawn > 0")
        return time.monotonic() - begun

    def wait(self, condition: str, seconds: float = WAIT) -> None:
        end = time.monotonic() + seconds
        while not self.value(f"Boolean({condition})"):
            if time.monotonic() > end:
                raise BrowserFault(f"waited for {condition}; {self.faults[:3]}")
            time.sleep(0.01)

    def value(self, script: str) -> Any:
        """What a script comes to in the page, as JSON; promises are waited for."""
        got = self.call("Runtime.evaluate", expression=script, returnByValue=True, awaitPromise=True)
        if "exceptionDetails" in got:
            details = got["exceptionDetails"]
            raise BrowserFault(f"{script[:200]}: {details.get('exception', {}).get('description', details['text'])}")
        return got["result"].get("value")

    def drawn(self) -> None:
        """Waits until the page has drawn what was asked for before."""
        self.value("new Promise((done) => requestAnimationFrame(() => requestAnimationFrame(() => done(true))))")

    def mouse(self, kind: str, x: float, y: float, **more: Any) -> None:
        self.call("Input.dispatchMouseEvent", type=kind, x=x, y=y, **more)

    def click(self, x: float, y: float) -> None:
        self.mouse("mouseMoved", x, y)
        self.mouse("mousePressed", x, y, button="left", buttons=1, clickCount=1)
        self.mouse("mouseReleased", x, y, button="left", clickCount=1)

    def drag(self, x: float, y: float, across: float, down: float, steps: int = 4) -> None:
        self.mouse("mouseMoved", x, y)
        self.mouse("mousePressed", x, y, button="left", buttons=1, clickCount=1)
        for k in range(1, steps + 1):
            self.mouse("mouseMoved", x + across * k / steps, y + down * k / steps, button="left", buttons=1)
        self.mouse("mouseReleased", x + across, y + down, button="left", clickCount=1)

    def wheel(self, x: float, y: float, turned: float) -> None:
        self.mouse("mouseWheel", x, y, deltaX=0, deltaY=turned)

    def screenshot(self) -> bytes:
        """The bytes of a PNG of what is seen."""
        return base64.b64decode(self.call("Page.captureScreenshot", format="png")["data"])

    def downloaded(self, name: str) -> bytes:
        """The bytes of a file that the page saved."""
        path, end = self.folder / name, time.monotonic() + WAIT
        while time.monotonic() < end:
            self.value("1")
            if path.exists() and self.ended:
                self.ended.clear()
                data = path.read_bytes()
                path.unlink()
                return data
            time.sleep(0.02)
        raise BrowserFault(f"{name} was not saved")

    def close(self) -> None:
        if self.socket:
            self.socket.close()
        self.process.terminate()
        try:
            self.process.wait(10)
        except subprocess.TimeoutExpired:
            self.process.kill()
            self.process.wait()
        shutil.rmtree(self.folder, ignore_errors=True)
