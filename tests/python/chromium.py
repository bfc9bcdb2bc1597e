"""A headless Chromium that a test steers over a pipe, by the standard library alone."""
from __future__ import annotations

import base64
import json
import os
import shutil
import tempfile
import time
from typing import Any, Dict, List, Optional

NAMES = ("chromium", "chromium-browser", "google-chrome")
WORDS = (
    "--headless=new", "--no-sandbox", "--disable-gpu", "--disable-dev-shm-usage", "--no-first-run", "--disable-extensions",
    "--disable-background-networking", "--disable-sync", "--hide-scrollbars", "--remote-debugging-pipe",
)


def installed() -> Optional[str]:
    """Returns the path of the browser, or None where there is none."""
    return next((found for found in (shutil.which(it) for it in NAMES) if found), None)


class Browser:
    """One page of a browser. Use it with `with`; it ends the browser behind itself."""

    def __enter__(self) -> "Browser":
        self._folder = tempfile.TemporaryDirectory(prefix="relint-chromium-")
        theirs_in, self._out = os.pipe()
        self._in, theirs_out = os.pipe()
        words = [str(installed()), *WORDS, f"--user-data-dir={self._folder.name}", "about:blank"]
        quiet = os.open(os.devnull, os.O_RDWR)
        # (both ends are first moved above 10, so that neither is written over)
        ends = [os.dup(it) for it in (theirs_in, theirs_out)]
        high = [_above(it) for it in ends]
        actions = [(os.POSIX_SPAWN_DUP2, quiet, it) for it in (0, 1, 2)]
        actions += [(os.POSIX_SPAWN_DUP2, high[0], 3), (os.POSIX_SPAWN_DUP2, high[1], 4)]
        self._pid = os.posix_spawn(words[0], words, os.environ, file_actions=actions)
        for it in (theirs_in, theirs_out, quiet, *ends, *high):
            os.close(it)
        self._rest = b""
        self._number = 0
        self.events: List[Dict[str, Any]] = []
        target = self._sent("Target.createTarget", {"url": "about:blank"})["targetId"]
        self._session = self._sent("Target.attachToTarget", {"targetId": target, "flatten": True})["sessionId"]
        for name in ("Page.enable", "Runtime.enable", "Log.enable"):
            self.ask(name)
        return self

    def __exit__(self, *_: object) -> None:
        try:
            self._sent("Browser.close", {})
        except (OSError, EOFError, RuntimeError):
            os.kill(self._pid, 15)
        os.waitpid(self._pid, 0)
        os.close(self._in)
        os.close(self._out)
        self._folder.cleanup()

    def _message(self) -> Dict[str, Any]:
        while b"\0" not in self._rest:
            more = os.read(self._in, 1 << 20)
            if not more:
                raise EOFError("the browser has ended")
            self._rest += more
        one, _, self._rest = self._rest.partition(b"\0")
        found: Dict[str, Any] = json.loads(one)
        return found

    def _sent(self, name: str, values: Dict[str, Any], session: str = "") -> Dict[str, Any]:
        self._number += 1
        question: Dict[str, Any] = {"id": self._number, "method": name, "params": values}
        if session:
            question["sessionId"] = session
        left = json.dumps(question).encode() + b"\0"
        while left:
            left = left[os.write(self._out, left):]
        while True:
            found = self._message()
            if found.get("id") == self._number:
                if "error" in found:
                    raise RuntimeError(f"{name}: {found['error']}")
                result: Dict[str, Any] = found["result"]
                return result
            self.events.append(found)

    def ask(self, name: str, **values: Any) -> Dict[str, Any]:
        """Asks the page a question of the browser's protocol."""
        return self._sent(name, values, self._session)

    def open(self, address: str) -> None:
        """Opens an address, and waits until it is loaded."""
        self.events.clear()
        self.ask("Page.navigate", url=address)
        while not any(it.get("method") == "Page.loadEventFired" for it in self.events):
            self.events.append(self._message())

    def run(self, script: str) -> Any:
        """Runs a script in the page as if the user had asked for it, and returns its value."""
        found = self.ask("Runtime.evaluate", expression=script, returnByValue=True, awaitPromise=True, userGesture=True)
        if "exceptionDetails" in found:
            raise RuntimeError(str(found["exceptionDetails"]))
        return found["result"].get("value")

    def awaited(self, script: str, wanted: object) -> Any:
        """Runs a script again and again until it gives this value, for ten minutes at most; returns what it gave last."""
        until = time.monotonic() + 600
        found = self.run(script)
        while found != wanted and time.monotonic() < until:
            time.sleep(0.02)
            found = self.run(script)
        return found

    def size(self, width: int, height: int) -> None:
        """Gives the page a width and a height."""
        self.ask("Emulation.setDeviceMetricsOverride", width=width, height=height, deviceScaleFactor=1, mobile=False)

    def looks(self, scheme: str, media: str = "screen") -> None:
        """Sets light or dark, and screen or print."""
        features = [{"name": "prefers-color-scheme", "value": scheme}]
        self.ask("Emulation.setEmulatedMedia", media=media, features=features)

    def picture(self, path: str, whole: bool = True) -> None:
        """Writes a picture of the page."""
        found = self.ask("Page.captureScreenshot", format="png", captureBeyondViewport=whole)
        with open(path, "wb") as file:
            file.write(base64.b64decode(found["data"]))

    def complaints(self) -> List[str]:
        """Returns what the browser has logged as an error since the page was opened: scripts that failed or were refused."""
        self.run("1")
        found = []
        for it in self.events:
            if it.get("method") == "Runtime.exceptionThrown":
                found.append(str(it["params"]["exceptionDetails"]))
            if it.get("method") == "Log.entryAdded" and it["params"]["entry"]["level"] == "error":
                found.append(str(it["params"]["entry"]["text"]))
        return found


def _above(number: int) -> int:
    """A copy of a file's number that is above 10."""
    import fcntl

    return fcntl.fcntl(number, fcntl.F_DUPFD, 11)
