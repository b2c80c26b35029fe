# Not proved (../README.md).
"""Chromium without a window, asked over a pipe: what it makes of a page."""

import base64
import json
import os
import subprocess
from pathlib import Path
from typing import Any

WORDS = "--headless --no-sandbox --disable-gpu --no-first-run --remote-debugging-pipe".split()
# It answers at once, or not at all.
MOST_BYTES = 1 << 16


class Browser:
    """One browser with one page. Commands and events are those of its DevTools protocol."""

    def __init__(self, program: str, folder: Path) -> None:
        to_it, self._to = os.pipe()
        self._from, from_it = os.pipe()
        self._number, self._bytes = 0, b""
        self._session: dict[str, str] = {}
        self.events: list[dict[str, Any]] = []

        def ends() -> None:
            os.dup2(to_it, 3)
            os.dup2(from_it, 4)
            os.set_inheritable(3, True)
            os.set_inheritable(4, True)

        words = [program, *WORDS, f"--user-data-dir={folder}"]
        quiet = subprocess.DEVNULL
        self._process = subprocess.Popen(words, preexec_fn=ends, close_fds=False, stdout=quiet, stderr=quiet)
        os.close(to_it)
        os.close(from_it)
        made = self.call("Target.createTarget", url="about:blank")
        attached = self.call("Target.attachToTarget", targetId=made["targetId"], flatten=True)
        self._session = {"sessionId": attached["sessionId"]}
        for part in ("Page", "Runtime", "Log", "Accessibility", "DOM"):
            self.call(f"{part}.enable")

    def close(self) -> None:
        self._session = {}
        self.call("Browser.close")
        self._process.wait(20)
        os.close(self._to)
        os.close(self._from)

    def call(self, method: str, **words: Any) -> dict[str, Any]:
        self._number += 1
        message = {"id": self._number, "method": method, "params": words, **self._session}
        os.write(self._to, json.dumps(message).encode() + b"\0")
        while True:
            answer = self._next()
            if answer.get("id") == self._number:
                assert "error" not in answer, answer["error"]
                result: dict[str, Any] = answer["result"]
                return result
            self.events.append(answer)

    def _next(self) -> dict[str, Any]:
        while b"\0" not in self._bytes:
            more = os.read(self._from, MOST_BYTES)
            assert more, "the browser has ended"
            self._bytes += more
        message, _, self._bytes = self._bytes.partition(b"\0")
        told: dict[str, Any] = json.loads(message)
        return told

    def show(self, page: Path, width: int, is_dark: bool) -> None:
        """Opens a page in a window of this width."""
        self.events.clear()
        self.call("Emulation.setDeviceMetricsOverride", width=width, height=900, deviceScaleFactor=1, mobile=False)
        scheme = {"name": "prefers-color-scheme", "value": "dark" if is_dark else "light"}
        self.call("Emulation.setEmulatedMedia", features=[scheme])
        self.call("Page.navigate", url=page.as_uri())
        while not any(one.get("method") == "Page.loadEventFired" for one in self.events):
            self.events.append(self._next())

    def value(self, script: str) -> Any:
        """What an expression of the page's language gives."""
        told = self.call("Runtime.evaluate", expression=script, returnByValue=True)
        assert "exceptionDetails" not in told, told
        return told["result"].get("value")

    def complaints(self) -> list[str]:
        """What stands on the console."""
        kinds = ("Runtime.consoleAPICalled", "Runtime.exceptionThrown", "Log.entryAdded")
        return [json.dumps(one["params"]) for one in self.events if one.get("method") in kinds]

    def tree(self) -> list[tuple[str, str, dict[str, Any]]]:
        """What a screen reader is told: role, name and properties of each node that it doesn't pass over."""
        nodes = self.call("Accessibility.getFullAXTree")["nodes"]
        return [
            (
                one.get("role", {}).get("value", ""),
                one.get("name", {}).get("value", ""),
                {each["name"]: each["value"].get("value") for each in one.get("properties", [])},
            )
            for one in nodes
            if not one.get("ignored")
        ]

    def press(self, key: str, code: int) -> None:
        for kind in ("keyDown", "keyUp"):
            self.call("Input.dispatchKeyEvent", type=kind, key=key, code=key, windowsVirtualKeyCode=code)

    def picture(self, file: Path) -> None:
        told = self.call("Page.captureScreenshot", format="png")
        file.write_bytes(base64.b64decode(told["data"]))
