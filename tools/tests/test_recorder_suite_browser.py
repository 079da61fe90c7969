"""Tests that a page behaves the same with the recorder in front of it and without it: each page of
recorder/suite is opened both ways, and what its own tests say is compared."""

import json
import time
import unittest
from pathlib import Path
from typing import Any

from recording import CHROMIUM, RECORDER, needs_browser

from waplay_tools.chromium import Browser
from waplay_tools.recorder.bundle import recorder_text
from waplay_tools.recorder.driving import Wishes
from waplay_tools.recorder.serving import Folder

ROOT = RECORDER / "suite"
PAGES = sorted(ROOT.rglob("*.html"))
SECONDS = 60


@needs_browser
class Suite(unittest.TestCase):
    """One browser opens all pages."""

    @classmethod
    def setUpClass(cls) -> None:
        cls.browser = Browser(str(CHROMIUM))
        cls.addClassCleanup(cls.browser.close)
        cls.served = Folder(ROOT)
        cls.addClassCleanup(cls.served.close)

    def opened(self, page: Path) -> dict[str, Any]:
        """What the tests of a page say when it is opened."""
        self.browser.open("about:blank")
        self.browser.open(self.served.url_of(page))
        deadline = time.monotonic() + SECONDS
        text = "document.readyState === 'complete' && JSON.stringify(globalThis.suiteResults)"
        while True:
            told = json.loads(self.browser.evaluate(text) or "{}")
            if told.get("done"):
                told["results"].sort()
                return told
            self.assertLess(time.monotonic(), deadline, f"it does not end: {told}")
            self.browser.pump(0.02)

    def recorded(self, page: Path, wishes: Wishes) -> dict[str, Any]:
        """The same with the recorder in front of the page."""
        injected = self.browser.inject(wishes.options() + recorder_text())
        try:
            told = self.opened(page)
            progress = self.browser.evaluate("waplayRecorder.progress()")
        finally:
            self.browser.remove(injected)
        self.assertEqual(progress["faults"], [])
        return told

    def look_at(self, page: Path) -> None:
        plain = self.opened(page)
        self.assertGreater(len(plain["results"]), 0, "it has no tests")
        names = [name for name, *_ in plain["results"]]
        self.assertEqual(len(set(names)), len(names), "two tests have one name")
        self.assertEqual(self.recorded(page, Wishes(page="")), plain)

    def test_the_pages_pass_in_this_browser(self) -> None:
        """What fails without the recorder is a fault of the browser or the page."""
        for page in PAGES:
            with self.subTest(page.relative_to(ROOT)):
                failed = [each for each in self.opened(page)["results"] if each[1] != "PASS"]
                self.assertEqual(failed, [])


def add_pages() -> None:
    """Makes a test of each page."""
    for page in PAGES:
        def look(self: Suite, page: Path = page) -> None:
            self.look_at(page)
        name = "_".join(page.relative_to(ROOT).with_suffix("").parts).replace("-", "_")
        setattr(Suite, f"test_same_{name}", look)


add_pages()

if __name__ == "__main__":
    unittest.main()
