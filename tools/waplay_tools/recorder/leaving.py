"""Keeps what was recorded of documents that go away, as of a page that goes to another one.

The browser holds the request for the new document until the old one has handed over its contexts,
see leaving.js. A frame that a page removes cannot be held; what it had is told to be lost.
"""

import collections
import contextlib
import json
import time
from typing import Any

from waplay_tools.chromium import Browser, BrowserFault, Event
from waplay_tools.recorder import results
from waplay_tools.recorder.results import Recorded

STEP = 0.02
BEGINNING = 1.0  # seconds within which a document says that it is about to go away

Place = tuple[str | None, int]  # a document: its session, and its number there


class TooLate(Exception):
    """A document did not hand over what it had in time."""


class Leaving:
    """Follows the documents of a browser that go away."""

    def __init__(self, browser: Browser, seconds: float) -> None:
        self.browser = browser
        self.seconds = seconds  # that a document has to hand over its contexts
        self.kept: list[Recorded] = []
        self.count = 0  # of all contexts of these documents, started or not
        self.lost: list[str] = []
        self.messages: dict[Place, collections.deque[dict[str, Any]]] = {}
        self.is_open = False
        browser.listeners.append(self._hear)
        browser.call("Runtime.addBinding", name="waplayLeaving")
        browser.call("Fetch.enable", patterns=[{"urlPattern": "*", "resourceType": "Document"}])

    def close(self) -> None:
        """Stops following."""
        with contextlib.suppress(BrowserFault):
            self.browser.call("Fetch.disable", timeout=5)
            self.browser.call("Runtime.removeBinding", name="waplayLeaving", timeout=5)
        self.browser.listeners.remove(self._hear)

    def _hear(self, event: Event) -> None:
        if event.method == "Fetch.requestPaused":
            # Meanwhile the browser answers nothing about the page, so this cannot wait. The first
            # document replaces nothing, and one that was sent elsewhere has been here before.
            if self.is_open and not event.params.get("redirectedRequestId"):
                self._take_over_all(event.params["frameId"])
            self.is_open = True
            self.browser.tell("Fetch.continueRequest", of=event.session,
                              requestId=event.params["requestId"])
        elif event.method == "Runtime.bindingCalled" and event.params["name"] == "waplayLeaving":
            place = (event.session, event.params["executionContextId"])
            message = json.loads(event.params["payload"])
            if "gone" not in message:
                self.messages.setdefault(place, collections.deque()).append(message)
            elif message["gone"]:
                self.lost.append(f"the page left a document with {message['gone']} contexts, "
                                 "which are lost")

    def _take_over_all(self, name: str) -> None:
        """Takes over what the documents have that are about to be replaced in a frame."""
        deadline = time.monotonic() + self.seconds
        for frame in list(self.browser.frames):
            if name in (frame.name, self.browser.target):
                with contextlib.suppress(TooLate):
                    self._take_over((frame.session, frame.context), deadline)

    def _take_over(self, place: Place, deadline: float) -> None:
        """Takes over the contexts of a document."""
        first = self._next(place, min(deadline, time.monotonic() + BEGINNING))
        for inside in range(1, first["leaving"] + 1):
            number = self.count + inside
            recorded = results.take_out(
                lambda _: self._next(place, deadline)["value"], inside, number)
            if recorded:
                results.rename(recorded)
                self.kept.append(recorded)
        self.count += first["leaving"]
        if first["leaving"]:
            self.messages[place].append({"taken": True})

    def _next(self, place: Place, deadline: float) -> dict[str, Any]:
        """The next message of a document."""
        while not self.messages.get(place):
            if time.monotonic() > deadline:
                raise TooLate
            self.browser.pump(STEP)
        return self.messages[place].popleft()
