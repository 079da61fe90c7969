"""A browser in which the tests of pages look at what is shown, and press keys."""

import base64
import pathlib
import time
from typing import Any

from waplay_tools import chromium

PROGRAM = chromium.find_chromium()
PATIENCE = 240  # seconds for what takes a moment, but on a machine that does much else
KEYS = {"Tab": 9, "Enter": 13, "Home": 36, "End": 35, "ArrowLeft": 37, "ArrowRight": 39}


class Browser(chromium.Browser):
    """A headless Chromium with one page. Use it in a `with`."""

    def __init__(self) -> None:
        super().__init__(PROGRAM or "chromium")
        self.call("Accessibility.enable")

    def call(self, method: str, of: str | None = "page", timeout: float = PATIENCE,
             **params: Any) -> dict[str, Any]:
        """Calls a method of the debugging protocol, with patience."""
        return super().call(method, of, max(timeout, PATIENCE), **params)

    def show(self, path: str, width: int, scheme: str = "light", scripts: bool = True,
             height: int = 900) -> None:
        """Opens a file at this width, in this scheme of colours, with or without scripts."""
        self.call("Emulation.setScriptExecutionDisabled", value=not scripts)
        self.call("Emulation.setDeviceMetricsOverride", width=width, height=height,
                  deviceScaleFactor=1, mobile=False)
        self.call("Emulation.setEmulatedMedia",
                  features=[{"name": "prefers-color-scheme", "value": scheme}])
        self.events.clear()
        self.open(pathlib.Path(path).absolute().as_uri())
        deadline = time.monotonic() + PATIENCE
        while not any(event.method == "Page.loadEventFired" for event in self.events):
            if time.monotonic() > deadline:
                raise AssertionError(f"{path} is not loaded")
            self.pump(0.02)

    def picture(self, path: str) -> None:
        """Writes a picture of the whole page."""
        data = self.call("Page.captureScreenshot", format="png", captureBeyondViewport=True)
        pathlib.Path(path).write_bytes(base64.b64decode(data["data"]))

    def key(self, key: str, modifiers: int = 0) -> None:
        """Presses a key."""
        text = {"text": "\r" if key == "Enter" else key}
        for kind in "keyDown", "keyUp":
            more = text if kind == "keyDown" and (key not in KEYS or key == "Enter") else {}
            code = KEYS.get(key, ord(key[0].upper()))
            self.call("Input.dispatchKeyEvent", type=kind, key=key, modifiers=modifiers,
                      windowsVirtualKeyCode=code, **more)

    def drag(self, start: tuple[float, float], end: tuple[float, float]) -> None:
        """Drags from one place to another, each of which is an x and a y."""
        steps = [("mouseMoved", start), ("mousePressed", start), ("mouseMoved", end),
                 ("mouseReleased", end)]
        for kind, (x, y) in steps:
            self.call("Input.dispatchMouseEvent", type=kind, x=x, y=y, button="left", buttons=1,
                      clickCount=1)
