"""Opens a page in the browser with the recorder in front of it, and lets it play."""

import contextlib
import dataclasses
import json
import time
from collections.abc import Callable, Iterator
from pathlib import Path

from waplay_tools.chromium import Browser, BrowserFault, Frame, FrameGone, NoAnswer
from waplay_tools.recorder import results
from waplay_tools.recorder.bundle import recorder_text
from waplay_tools.recorder.leaving import Leaving
from waplay_tools.recorder.news import News
from waplay_tools.recorder.results import Recorded
from waplay_tools.recorder.serving import Folder

STEP = 0.05  # seconds between two looks at a page
LEAST = 5.0  # seconds that a page has to answer, even where its time is over
MOST_CALM = 0.25  # what one look counts at most: while a page computes it is not calm
HOPE = 2.0  # seconds that a page is left calm where something went wrong in it
PATIENCE = 10.0  # and where nothing did, and it has nothing to record
PATIENCE_FOR_A_CLICK = 5.0  # and where it has a button

# It comes before the recorder, which may put other timers in the place of the page's.
LEAVING = Path(__file__).with_name("leaving.js").read_text(encoding="utf-8")

PROGRESS = """({ready: document.readyState === 'complete',
    ...(globalThis.waplayRecorder ? waplayRecorder.progress() : {})})"""

CLICKABLE = """(() => {
    const found = document.querySelector('button, input[type=button], [onclick], [role=button]');
    return found && (found.id ? '#' + CSS.escape(found.id) : found.localName);
})()"""


@dataclasses.dataclass(frozen=True)
class Wishes:
    """What is to be recorded, and how."""

    page: str  # a file or a URL
    root: Path | None = None
    realtime: float = 0
    click: str | None = None
    do: Path | None = None
    plain: bool = False
    loops_as_browser: bool = False
    seconds: bool = False
    timeout: float = 60
    quiet: float = 1
    contexts: int = 0
    until: str | None = None

    @property
    def is_url(self) -> bool:
        """Whether the page is named by its URL."""
        return self.page.startswith(("http://", "https://"))

    def options(self) -> str:
        """The script that tells the recorder in the page."""
        is_begun_by_hand = self.click is not None or self.do is not None
        words = {"plain": self.plain, "loops": self.loops_as_browser, "seconds": self.seconds,
                 "realtime": self.realtime, "click": is_begun_by_hand}
        return f"globalThis.waplayRecorderOptions = {json.dumps(words)};\n"


@dataclasses.dataclass
class Progress:
    """What has happened in all frames so far."""

    is_loaded: bool = False
    contexts: int = 0
    started: int = 0
    complete: int = 0
    suspended: int = 0
    realTime: int = 0
    unrecorded: int = 0
    waiting: int = 0
    seconds: float = 0  # of the contexts that started
    work: int = 0
    faults: list[str] = dataclasses.field(default_factory=list)

    def add(self, told: dict, is_main: bool) -> None:
        """Adds what one frame tells."""
        for name in ("contexts", "started", "complete", "suspended", "realTime", "unrecorded",
                     "waiting", "seconds", "work"):
            setattr(self, name, getattr(self, name) + (told.get(name) or 0))
        self.faults += told.get("faults", [])
        if is_main:
            self.is_loaded = bool(told.get("ready"))

    def keep(self, recorded: Recorded) -> None:
        """Adds a context of a document that went away."""
        self.contexts += 1
        self.started += 1
        self.complete += 1
        self.seconds += recorded.seconds

    def is_complete(self) -> bool:
        """Whether something was rendered, and nothing is being rendered."""
        return 0 < self.started == self.complete


Tell = Callable[[str], None]  # is told what is being done


def say_nothing(_: str) -> None:
    """Where nobody wants to know what is being done."""


class Session:
    """A page in the browser while it is recorded."""

    def __init__(self, browser: Browser, news: News, wishes: Wishes,
                 tell: Tell = say_nothing) -> None:
        self.browser, self.news, self.wishes, self.tell = browser, news, wishes, tell
        self.began = time.monotonic()
        self.progress = Progress()
        self.leaving = Leaving(browser, wishes.timeout)

    # Time.

    def limit(self) -> float:
        """How many seconds the page has in all. It grows with what is rendered."""
        return self.wishes.timeout + 4 * (self.progress.seconds + self.wishes.realtime)

    def left(self) -> float:
        """How many seconds the page has to answer."""
        return max(LEAST, self.began + self.limit() - time.monotonic())

    def is_over(self) -> bool:
        """Whether no time is left."""
        return time.monotonic() > self.began + self.limit()

    # Looking at the page.

    def _told(self, frame: Frame) -> dict:
        try:
            return self.browser.evaluate(PROGRESS, timeout=self.left(), frame=frame)
        except NoAnswer:
            seconds = time.monotonic() - self.began
            raise BrowserFault(f"The page's scripts ran without a pause until the {seconds:.0f} "
                               "seconds of the wait were over.") from None

    def look(self) -> Progress:
        """What has happened so far."""
        self.browser.pump(STEP)
        progress = Progress()
        for frame in list(self.browser.frames):
            with contextlib.suppress(FrameGone):
                progress.add(self._told(frame), frame.is_main)
        for recorded in self.leaving.kept:
            progress.keep(recorded)
        if progress.started > self.progress.started:
            self.tell(f"rendering {progress.seconds:.4g} s of sound")
        self.progress = progress
        return progress

    def looks(self) -> Iterator[tuple[Progress, float, float]]:
        """Looks at the page until the time is over. Gives for how long its progress has not
        changed, and for how long nothing happened in it at all."""
        last, heard, quiet, calm = Progress(), (-1, 0), 0.0, 0.0
        while not self.is_over():
            before = time.monotonic()
            progress = self.look()
            step = min(MOST_CALM, time.monotonic() - before)
            now = (self.news.count, len(self.browser.frames))
            quiet = quiet + step if progress == last else 0.0
            calm = calm + step if quiet and now == heard and not self.news.loading() else 0.0
            last, heard = progress, now
            yield progress, quiet, calm

    def is_hopeless(self, progress: Progress, calm: float) -> bool:
        """Whether nothing is to be expected of the page any more."""
        wishes = self.wishes
        if not progress.is_loaded:
            return False
        is_stalled = 0 < progress.started == progress.complete + progress.suspended
        if progress.started and not (is_stalled and progress.suspended):
            return False
        if self.news.cause() or (progress.unrecorded and not progress.contexts):
            return calm >= max(HOPE, wishes.quiet)
        if wishes.until or wishes.contexts or calm < max(PATIENCE_FOR_A_CLICK, wishes.quiet):
            return False
        is_waiting = not wishes.click and not progress.contexts and self.clickable() is not None
        return is_waiting or calm >= max(PATIENCE, wishes.quiet)

    def is_wanted(self, progress: Progress) -> bool:
        """Whether all is there that was asked for."""
        if progress.complete < self.wishes.contexts:
            return False
        return not self.wishes.until or self.holds(self.wishes.until)

    def holds(self, expression: str) -> bool:
        """Whether an expression holds in the page. One that throws does not, as yet."""
        text = f"(() => {{ try {{ return Boolean(eval({json.dumps(expression)})); }} "
        text += "catch (fault) { return false; } })()"
        with contextlib.suppress(FrameGone):
            return bool(self.browser.evaluate(text, timeout=self.left()))
        return False

    # The steps of a recording.

    def wait_for_rendering(self) -> None:
        """Waits until all that started is rendered, and nothing new comes for a while."""
        for progress, quiet, calm in self.looks():
            if progress.is_complete() and progress.is_loaded and quiet >= self.wishes.quiet:
                if not self.news.loading() and self.is_wanted(progress):
                    return
            if self.is_hopeless(progress, calm):
                return

    def wait_for_piece(self) -> bool:
        """Waits until a real-time piece is ready to begin."""
        for progress, quiet, calm in self.looks():
            if progress.realTime and not progress.waiting and progress.is_loaded:
                if quiet >= self.wishes.quiet and not self.news.loading():
                    return True
            elif not progress.realTime and self.is_hopeless(progress, calm):
                return False
        return False

    def click(self) -> None:
        """Clicks as soon as the element is there."""
        selector = json.dumps(self.wishes.click)
        test = f"""(() => {{ try {{ document.querySelector({selector}); return true; }}
                   catch (fault) {{ return false; }} }})()"""
        if not self.browser.evaluate(test):
            raise BrowserFault(f"{self.wishes.click} is no selector.")
        for progress, _, calm in self.looks():
            if progress.is_loaded and self._click_in_a_frame(selector):
                return
            if self.is_hopeless(progress, calm):
                break
        cause = self.news.cause()
        raise BrowserFault(f"The page has no element {self.wishes.click}"
                           f"{f': it {cause}' if cause else ''}.")

    def _click_in_a_frame(self, selector: str) -> bool:
        text = f"""(() => {{
            const found = document.querySelector({selector});
            if (!found || document.readyState !== 'complete') return false;
            if (globalThis.waplayRecorder) waplayRecorder.hold();
            found.click();
            return true;
        }})()"""
        for frame in list(self.browser.frames):
            with contextlib.suppress(FrameGone):
                if self.browser.evaluate(text, timeout=self.left(), frame=frame):
                    return True
        return False

    def act(self) -> None:
        """Begins to do what the file of actions says, as soon as the page is there."""
        text = json.dumps(self.wishes.do.read_text(encoding="utf-8") if self.wishes.do else "")
        for progress, _, calm in self.looks():
            if progress.is_loaded or self.is_hopeless(progress, calm):
                break
        self.browser.evaluate(f"waplayRecorder.hold(); void waplayRecorder.act({text})")

    def begin_pieces(self) -> None:
        """Lets the clock of real-time pieces run."""
        for frame in list(self.browser.frames):
            with contextlib.suppress(FrameGone):
                if self._told(frame).get("realTime"):
                    self.browser.evaluate("void waplayRecorder.go()", timeout=self.left(),
                                          frame=frame)

    def run(self) -> None:
        """Lets the page play."""
        if self.wishes.click is not None:
            self.click()
        if self.wishes.do is not None:
            self.act()
        if self.wishes.realtime and self.wait_for_piece():
            self.begin_pieces()
        if not self.wishes.realtime or self.progress.realTime:
            self.wait_for_rendering()

    # What comes of it.

    def _taken(self, frame: Frame, count: int, before: int) -> list[Recorded]:
        """The contexts of a frame that started rendering. Other frames had some before."""
        seconds = self.wishes.timeout + 60 + 30 * (self.progress.seconds + self.wishes.realtime)
        found = []
        for inside in range(1, count + 1):
            number = before + inside
            self.tell(f"rewriting and freezing context {number}")
            try:
                found.append(results.take_out(
                    lambda text: self.browser.evaluate(text, timeout=seconds, frame=frame),
                    inside, number))
            except NoAnswer:
                raise BrowserFault(f"The script of context {number} was not written within "
                                   f"{seconds:.0f} seconds; --timeout gives more.") from None
        return [recorded for recorded in found if recorded]

    def recorded(self) -> list[Recorded]:
        """All contexts that started rendering."""
        found, before = list(self.leaving.kept), self.leaving.count
        for frame in list(self.browser.frames):
            with contextlib.suppress(FrameGone):
                count = self._told(frame).get("contexts", 0)
                found += self._taken(frame, count, before)
                before += count
        return found

    def missing(self) -> list[str]:
        """What was asked for and did not come."""
        found = list(self.leaving.lost)
        if self.wishes.until and not self.holds(self.wishes.until):
            found.append(f"the page never came to --until {self.wishes.until}")
        if self.progress.complete < self.wishes.contexts:
            found.append(f"the page rendered {self.progress.complete} contexts, and --contexts "
                         f"asks for {self.wishes.contexts}")
        return found

    def title(self) -> str:
        """What the page calls itself."""
        with contextlib.suppress(BrowserFault):
            return str(self.browser.evaluate("document.title", timeout=LEAST))
        return ""

    def why_nothing(self) -> str:
        """One sentence on a page of which nothing was recorded."""
        progress, wishes = self.progress, self.wishes
        if progress.unrecorded and not progress.contexts:
            return "The page has a real-time AudioContext; record it with --realtime SECONDS."
        if progress.contexts and not (wishes.realtime and not progress.realTime):
            text = "No context of the page started rendering"
        else:
            text = f"The page made no {'AudioContext' if wishes.realtime else 'audio context'}"
        text += " after the click" if wishes.click else ""
        if self.leaving.lost:
            return f"{text}: {self.leaving.lost[0]}."
        if cause := self.news.cause():
            return f"{text}: it {cause}.{self._hint_at_root()}"
        text += f" within {min(self.limit(), time.monotonic() - self.began):.0f} seconds"
        if not progress.is_loaded and self.news.loading():
            return f"{text}; {self.news.loading()[0]} was still being loaded."
        return text + self._hint_at_click() + "."

    def _hint_at_root(self) -> str:
        if self.wishes.is_url or self.wishes.root or not self.news.has_missing_file():
            return ""
        return " Only the page's folder is served; --root FOLDER serves one above it."

    def _hint_at_click(self) -> str:
        found = None if self.wishes.click else self.clickable()
        return f"; perhaps it waits for a click, as --click '{found}'" if found else ""

    def clickable(self) -> str | None:
        """The selector of a button of the page."""
        for frame in list(self.browser.frames):
            with contextlib.suppress(BrowserFault):
                if found := self.browser.evaluate(CLICKABLE, timeout=5, frame=frame):
                    return str(found)
        return None


@dataclasses.dataclass
class Take:
    """What came of one run."""

    contexts: list[Recorded]
    troubles: list[str]  # lines on what went wrong in the page
    exceptions: list[str]
    missing: list[str]
    faults: list[str]  # of the recorder
    title: str = ""  # of the page
    browser: str = ""  # what the browser calls itself


def open_recorded(browser: Browser, url: str, wishes: Wishes, origin: str = "",
                  tell: Tell = say_nothing) -> Take:
    """Opens a page with the recorder in front of it, lets it play, and gives what it recorded."""
    injected = browser.inject(wishes.options() + LEAVING + recorder_text())
    news = News(browser, origin)
    session = Session(browser, news, wishes, tell)
    try:
        try:
            browser.open(url, timeout=max(LEAST, wishes.timeout))
        except NoAnswer:
            raise BrowserFault(f"{url} did not answer within {max(LEAST, wishes.timeout):g} "
                               "seconds.") from None
        session.run()
        contexts = session.recorded()
        if not contexts:
            raise BrowserFault(session.why_nothing())
        for recorded in contexts:
            recorded.troubles = news.lines()
        return Take(contexts, news.lines(), news.exceptions(), session.missing(),
                    session.progress.faults, session.title(),
                    str(browser.call("Browser.getVersion").get("product", "")))
    finally:
        session.leaving.close()
        news.close()
        browser.remove(injected)


def record(wishes: Wishes, chromium: str, tell: Tell = say_nothing) -> Take:
    """Records a page in a browser of its own."""
    tell(f"recording {wishes.page}")
    with Browser(chromium) as browser:
        if wishes.is_url:
            return open_recorded(browser, wishes.page, wishes, tell=tell)
        page = Path(wishes.page)
        with Folder(wishes.root or page.absolute().parent) as served:
            return open_recorded(browser, served.url_of(page), wishes, served.origin, tell)
