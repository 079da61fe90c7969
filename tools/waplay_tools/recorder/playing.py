"""Lets the browser play scripts (recorder/playback.js), to compare that with what was recorded."""

import array
import shutil
import time
from collections.abc import Sequence

from waplay_tools.chromium import Browser
from waplay_tools.places import TOP
from waplay_tools.recorder.results import words_of
from waplay_tools.recorder.serving import Folder

RECORDER = TOP / "recorder"


def difference(ours: Sequence[array.array], theirs: Sequence[array.array]) -> float:
    """The greatest difference of two lists of channels; infinite where they are not as many."""
    if [len(channel) for channel in ours] != [len(channel) for channel in theirs]:
        return float("inf")
    return max(abs(one - other) for mine, its in zip(ours, theirs)
               for one, other in zip(mine, its))


def open_modules(browser: Browser, served: Folder, names: Sequence[str]) -> None:
    """Opens a page in a served folder that has the exports of these modules of the recorder."""
    for path in RECORDER.glob("*.js"):
        shutil.copy(path, served.root)
    lines = [f"import * as module{number} from './{name}'; "
             f"Object.assign(globalThis, module{number});" for number, name in enumerate(names)]
    text = "\n".join(["<!doctype html><script type=module>", *lines,
                      "document.title = 'modules';</script>"])
    (served.root / "modules.html").write_text(text, encoding="utf-8")
    browser.open(served.url_of(served.root / "modules.html"))
    while not browser.evaluate("document.title === 'modules'"):
        time.sleep(0.02)


def played(browser: Browser, served: Folder, number: int) -> list[array.array]:
    """The channels that the browser renders for a script in a served folder."""
    open_modules(browser, served, ["playback.js"])
    texts = browser.evaluate(f"playScript('{number}.json')", timeout=60)
    return [words_of(text, "f") for text in texts]
