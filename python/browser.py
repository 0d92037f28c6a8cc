"""A headless Chromium for tests, by the DevTools protocol over a pipe: nothing but the standard library is needed."""

from __future__ import annotations

import base64
import fcntl
import json
import os
import select
import shutil
import subprocess
import tempfile
import time
from typing import Any, Dict, List, Optional

PROGRAMS = ("chromium", "chromium-browser", "google-chrome")
WORDS = (
    "--headless=new",
    "--no-sandbox",
    "--no-first-run",
    "--disable-gpu",
    "--disable-dev-shm-usage",
    "--disable-background-networking",
    "--hide-scrollbars",
    "--remote-debugging-pipe",
)


def program() -> Optional[str]:
    """The path of Chromium; None where there is none."""
    return next((path for path in map(shutil.which, PROGRAMS) if path), None)


def _far(number: int) -> int:
    """A file descriptor that isn't 3 or 4, which Chromium reads and writes."""
    moved = fcntl.fcntl(number, fcntl.F_DUPFD, 10)
    os.close(number)
    return moved


class Browser:
    """A page of a headless Chromium. What it asks of the network and what it complains of is kept."""

    def __init__(self, wait: float = 60) -> None:
        self.requests: List[str] = []
        self.complaints: List[str] = []
        self._wait, self._last, self._buffer, self._events = wait, 0, b"", []  # type: ignore[var-annotated]
        self._folder = tempfile.mkdtemp()
        asked, self._write = os.pipe()
        self._read, answered = os.pipe()
        asked, answered = _far(asked), _far(answered)

        def wire() -> None:
            os.dup2(asked, 3)
            os.dup2(answered, 4)

        words = [program() or "", *WORDS, f"--user-data-dir={self._folder}", "about:blank"]
        quiet: Dict[str, Any] = {name: subprocess.DEVNULL for name in ("stdin", "stdout", "stderr")}
        self._process = subprocess.Popen(words, preexec_fn=wire, pass_fds=(3, 4), **quiet)
        os.close(asked)
        os.close(answered)
        target = self._call("Target.createTarget", {"url": "about:blank"}, None)["targetId"]
        self._session = self._call("Target.attachToTarget", {"targetId": target, "flatten": True}, None)["sessionId"]
        for domain in ("Page", "Runtime", "Network", "Log"):
            self.call(domain + ".enable")

    def __enter__(self) -> "Browser":
        return self

    def __exit__(self, *error: Any) -> None:
        self.close()

    def close(self) -> None:
        """Ends the browser that this object started."""
        try:
            self._call("Browser.close", {}, None)
            self._process.wait(10)
        except (OSError, TimeoutError, RuntimeError, subprocess.TimeoutExpired):
            self._process.kill()
            self._process.wait()
        os.close(self._write)
        os.close(self._read)
        shutil.rmtree(self._folder, ignore_errors=True)

    def call(self, name: str, **given: Any) -> Dict[str, Any]:
        """What a call of the protocol answers."""
        return self._call(name, given, self._session)

    def _call(self, name: str, given: Dict[str, Any], session: Optional[str]) -> Dict[str, Any]:
        self._last += 1
        message: Dict[str, Any] = {"id": self._last, "method": name, "params": given}
        if session:
            message["sessionId"] = session
        os.write(self._write, json.dumps(message).encode() + b"\0")
        while True:
            answer = self._message()
            if answer.get("id") == self._last:
                if "error" in answer:
                    raise RuntimeError(f"{name}: {answer['error']}")
                found: Dict[str, Any] = answer["result"]
                return found
            self._seen(answer)

    def _message(self) -> Dict[str, Any]:
        end = time.monotonic() + self._wait
        while b"\0" not in self._buffer:
            if not select.select([self._read], [], [], max(0, end - time.monotonic()))[0]:
                raise TimeoutError("Chromium doesn't answer")
            part = os.read(self._read, 1 << 20)
            if not part:
                raise OSError("Chromium has ended")
            self._buffer += part
        message, _, self._buffer = self._buffer.partition(b"\0")
        found: Dict[str, Any] = json.loads(message)
        return found

    def _seen(self, event: Dict[str, Any]) -> None:
        self._events.append(event.get("method"))
        given = event.get("params", {})
        if event.get("method") == "Network.requestWillBeSent":
            self.requests.append(given["request"]["url"])
        elif event.get("method") == "Log.entryAdded":
            self.complaints.append(given["entry"]["text"])
        elif event.get("method") == "Runtime.exceptionThrown":
            self.complaints.append(str(given["exceptionDetails"]))

    def open(self, url: str) -> None:
        """Goes to a page, and waits until it is loaded."""
        self._events.clear()
        self.call("Page.navigate", url=url)
        while "Page.loadEventFired" not in self._events:
            self._seen(self._message())

    def ask(self, script: str) -> Any:
        """The value of an expression in the page."""
        answer = self.call("Runtime.evaluate", expression=script, returnByValue=True, awaitPromise=True)
        if "exceptionDetails" in answer:
            raise RuntimeError(str(answer["exceptionDetails"]))
        return answer["result"].get("value")

    def screen(self, width: int, height: int, dark: bool = False, media: str = "") -> None:
        """How wide and high the page is seen, in which colours, and as which medium."""
        sizes = {"width": width, "height": height, "deviceScaleFactor": 1, "mobile": width < 600}
        self.call("Emulation.setDeviceMetricsOverride", **sizes)
        colours = [{"name": "prefers-color-scheme", "value": "dark" if dark else "light"}]
        self.call("Emulation.setEmulatedMedia", media=media, features=colours)

    def picture(self, path: str, whole: bool = False) -> None:
        """Saves a picture of what is seen, or of the whole page."""
        answer = self.call("Page.captureScreenshot", format="png", captureBeyondViewport=whole)
        with open(path, "wb") as file:
            file.write(base64.b64decode(answer["data"]))
