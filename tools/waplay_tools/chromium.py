"""A headless Chromium that is driven over its debugging pipe.

The browser reads commands from its file descriptor 3 and writes answers and events to 4. Each is a
JSON text that ends with a byte 0. No port is opened. One page is open; its frames and workers that
have processes of their own are attached to as they come.
"""

import collections
import dataclasses
import fcntl
import json
import os
import select
import shutil
import signal
import subprocess
import tempfile
import time
from collections.abc import Callable
from typing import Any

NAMES = ["chromium", "chromium-browser", "google-chrome", "google-chrome-stable", "chrome"]

ARGUMENTS = [
    "--headless=new", "--remote-debugging-pipe", "--no-first-run", "--no-default-browser-check",
    "--disable-gpu", "--disable-extensions", "--disable-background-networking", "--disable-sync",
    "--disable-component-update", "--disable-features=DialMediaRouteProvider,OptimizationHints",
    "--hide-scrollbars", "--mute-audio", "--autoplay-policy=no-user-gesture-required",
    # A page that is not looked at is not slowed down.
    "--disable-background-timer-throttling", "--disable-renderer-backgrounding",
    "--disable-backgrounding-occluded-windows",
]

# The domains that tell what happens in a page; workers have no Page.
DOMAINS = ["Runtime", "Log", "Network", "Page"]


class BrowserFault(Exception):
    """What the browser could not do, in one sentence."""


class NoAnswer(BrowserFault):
    """The browser did not answer in time."""


# What the browser says of a document that is not there any more.
GONE = ("context", "session with given id not found", "target navigated or closed")


class FrameGone(BrowserFault):
    """The document in which an expression was to be evaluated is not there any more."""


@dataclasses.dataclass(frozen=True)
class Event:
    """What the browser tells without being asked."""

    method: str
    params: dict[str, Any]
    session: str | None


@dataclasses.dataclass(frozen=True)
class Frame:
    """A document of the page: the page itself, or one in an iframe."""

    session: str
    context: int
    name: str  # the frame's name in the browser, which stays when it goes to another document
    is_main: bool


def find_chromium(wanted: str | None = None) -> str | None:
    """The path of the browser that is asked for, or of the first one that is installed."""
    if wanted:
        return shutil.which(wanted)
    return next(filter(None, map(shutil.which, NAMES)), None)


class _Pipe:
    """The browser's process, and the messages that go to it and come from it."""

    def __init__(self, chromium: str) -> None:
        self.room = tempfile.mkdtemp(prefix="waplay-chromium-")  # its profile and temporary files
        self.rest = b""
        try:
            self._launch(chromium)
        except OSError as fault:
            shutil.rmtree(self.room, ignore_errors=True)
            raise BrowserFault(f"{chromium} cannot be started: {fault.strerror}.") from None
        except BaseException:
            shutil.rmtree(self.room, ignore_errors=True)
            raise

    def _launch(self, chromium: str) -> None:
        words = [chromium, *ARGUMENTS, f"--user-data-dir={self.room}/profile", "about:blank"]
        if os.geteuid() == 0:
            words.insert(1, "--no-sandbox")  # as root the browser does not start with one
        commands, self.commands = os.pipe()
        self.answers, answers = os.pipe()
        # Numbers out of the way of 3 and 4, to which the child copies them.
        high = [fcntl.fcntl(number, fcntl.F_DUPFD_CLOEXEC, 10) for number in (commands, answers)]

        def put_in_place() -> None:
            """Gives the child the two ends that it is to have as 3 and 4."""
            os.dup2(high[0], 3)
            os.dup2(high[1], 4)

        try:
            self.process = subprocess.Popen(
                words, stdin=subprocess.DEVNULL, stdout=subprocess.DEVNULL,
                stderr=subprocess.DEVNULL, close_fds=False, start_new_session=True,
                env={**os.environ, "TMPDIR": self.room}, preexec_fn=put_in_place)
        except OSError:
            os.close(self.commands)
            os.close(self.answers)
            raise
        finally:
            for number in [commands, answers, *high]:
                os.close(number)

    def send(self, message: dict[str, Any]) -> None:
        """Sends a command."""
        text = json.dumps(message).encode() + b"\0"
        try:
            while text:
                text = text[os.write(self.commands, text):]
        except OSError:
            raise BrowserFault("The browser ended.") from None

    def message(self, seconds: float) -> dict[str, Any] | None:
        """The next answer or event, or None where none comes within some seconds."""
        deadline = time.monotonic() + seconds
        while b"\0" not in self.rest:
            left = max(0.0, deadline - time.monotonic())
            if not select.select([self.answers], [], [], left)[0]:
                return None
            part = os.read(self.answers, 1 << 20)
            if not part:
                raise BrowserFault("The browser ended.")
            self.rest += part
        text, _, self.rest = self.rest.partition(b"\0")
        return json.loads(text)

    def close(self, seconds: float) -> None:
        """Ends the process, which has some seconds to do so by itself, and removes its files."""
        try:
            self.process.wait(timeout=seconds)
        except subprocess.TimeoutExpired:
            pass
        try:
            os.killpg(self.process.pid, signal.SIGKILL)  # what is left of the group
        except (ProcessLookupError, PermissionError):
            pass
        self.process.wait()
        os.close(self.commands)
        os.close(self.answers)
        for _ in range(20):  # a process that is being ended may still write
            shutil.rmtree(self.room, ignore_errors=True)
            if not os.path.exists(self.room):
                break
            time.sleep(0.05)


class Browser:
    """One browser with one page. Use it in a `with`, or `close` it."""

    def __init__(self, chromium: str) -> None:
        self.events: collections.deque[Event] = collections.deque(maxlen=100_000)
        self.listeners: list[Callable[[Event], None]] = [self._follow]
        self.frames: list[Frame] = []
        self.injected: dict[str, str] = {}
        self._count = 0
        self._answers: dict[int, dict[str, Any]] = {}
        self._unwanted: set[int] = set()
        self.session = self.target = ""
        self._pipe = _Pipe(chromium)
        try:
            self._attach()
        except BaseException:
            self.close()
            raise

    def __enter__(self) -> "Browser":
        return self

    def __exit__(self, *_: object) -> None:
        self.close()

    def _attach(self) -> None:
        targets = self.call("Target.getTargets", of=None)["targetInfos"]
        page = next((each["targetId"] for each in targets if each["type"] == "page"), None)
        if page is None:
            page = self.call("Target.createTarget", of=None, url="about:blank")["targetId"]
        session = self.call("Target.attachToTarget", of=None, targetId=page, flatten=True)
        self.target, self.session = page, session["sessionId"]
        for domain in DOMAINS:
            self.call(f"{domain}.enable")
        self.call("Target.setAutoAttach", autoAttach=True, waitForDebuggerOnStart=True,
                  flatten=True)

    # Messages.

    def send(self, method: str, of: str | None = "page", **params: Any) -> int:
        """Sends a command to a session, which is the page's where none is named. The number of
        the command is for `answer`."""
        self._count += 1
        message: dict[str, Any] = {"id": self._count, "method": method, "params": params}
        if of is not None:
            message["sessionId"] = self.session if of == "page" else of
        self._pipe.send(message)
        return self._count

    def tell(self, method: str, of: str | None = "page", **params: Any) -> None:
        """Sends a command whose answer nobody waits for."""
        self._unwanted.add(self.send(method, of, **params))

    def call(self, method: str, of: str | None = "page", timeout: float = 30,
             **params: Any) -> dict[str, Any]:
        """Calls a method of the debugging protocol, and gives its result."""
        return self.answer(self.send(method, of, **params), method, timeout)

    def answer(self, number: int, method: str, timeout: float) -> dict[str, Any]:
        """The result of a command that was sent."""
        deadline = time.monotonic() + timeout
        while number not in self._answers:
            if not self._read(deadline - time.monotonic()):
                self._unwanted.add(number)
                raise NoAnswer("The browser did not answer in time.")
        message = self._answers.pop(number)
        if "error" in message:
            text = message["error"].get("message", "")
            if any(words in text.lower() for words in GONE):
                raise FrameGone(f"The browser refused {method}: {text}.")
            raise BrowserFault(f"The browser refused {method}: {text}.")
        return message["result"]

    def pump(self, seconds: float) -> None:
        """Takes in what the browser tells within some seconds."""
        deadline = time.monotonic() + seconds
        while self._read(deadline - time.monotonic()):
            pass

    def _read(self, seconds: float) -> bool:
        """Takes in one message. False where none came in time."""
        message = self._pipe.message(max(0.0, seconds))
        if message is None:
            return False
        if "id" in message:
            if message["id"] in self._unwanted:
                self._unwanted.discard(message["id"])
            else:
                self._answers[message["id"]] = message
        else:
            event = Event(message["method"], message["params"], message.get("sessionId"))
            self.events.append(event)
            for listener in self.listeners:
                listener(event)
        return True

    # What is followed all the time.

    def _follow(self, event: Event) -> None:
        params = event.params
        match event.method:
            case "Runtime.executionContextCreated":
                self._frame_came(event, params["context"])
            case "Runtime.executionContextDestroyed":
                self._keep(lambda frame: (frame.session, frame.context)
                           != (event.session, params["executionContextId"]))
            case "Runtime.executionContextsCleared":
                self._keep(lambda frame: frame.session != event.session)
            case "Target.detachedFromTarget":
                self._keep(lambda frame: frame.session != params["sessionId"])
            case "Target.attachedToTarget" if event.session is not None:
                self._target_came(params["sessionId"], params["targetInfo"]["type"])
            case "Page.javascriptDialogOpening":  # the page waits for it
                self.tell("Page.handleJavaScriptDialog", of=event.session, accept=True)
            case "Inspector.targetCrashed":
                raise BrowserFault("The page crashed in the browser.")

    def _keep(self, is_kept: Callable[[Frame], bool]) -> None:
        self.frames = list(filter(is_kept, self.frames))

    def _frame_came(self, event: Event, context: dict[str, Any]) -> None:
        kind = context.get("auxData", {})
        if not kind.get("isDefault") or not kind.get("frameId") or event.session is None:
            return
        is_main = kind["frameId"] == self.target
        self.frames.append(Frame(event.session, context["id"], kind["frameId"], is_main))

    def _target_came(self, session: str, kind: str) -> None:
        """A frame or a worker with a process of its own stands still until it is let go on."""
        for domain in DOMAINS if kind == "iframe" else DOMAINS[:3]:
            self.tell(f"{domain}.enable", of=session)
        if kind == "iframe":
            for source in self.injected.values():
                self.tell("Page.addScriptToEvaluateOnNewDocument", of=session, source=source)
        self.tell("Target.setAutoAttach", of=session, autoAttach=True,
                  waitForDebuggerOnStart=True, flatten=True)
        self.tell("Runtime.runIfWaitingForDebugger", of=session)

    # Pages.

    def inject(self, source: str) -> str:
        """Lets a script run before those of every document that is opened from now on, and gives
        its name for `remove`."""
        result = self.call("Page.addScriptToEvaluateOnNewDocument", source=source)
        self.injected[result["identifier"]] = source
        return result["identifier"]

    def remove(self, injected: str) -> None:
        """Takes an injected script away again, if the browser still runs."""
        self.injected.pop(injected, None)
        try:
            self.call("Page.removeScriptToEvaluateOnNewDocument", identifier=injected, timeout=5)
        except BrowserFault:
            pass

    def open(self, url: str, timeout: float = 30) -> None:
        """Opens a page. Its scripts may still run afterwards."""
        answer = self.call("Page.navigate", timeout=timeout, url=url)
        if answer.get("errorText"):
            raise BrowserFault(f"The browser could not open {url}: {answer['errorText']}.")

    def evaluate(self, expression: str, timeout: float = 30, frame: Frame | None = None) -> Any:
        """The value of an expression in the page or one of its frames, or of the promise that it
        gives."""
        place = {"contextId": frame.context} if frame else {}
        result = self.call("Runtime.evaluate", of=frame.session if frame else "page",
                           timeout=timeout, expression=expression, awaitPromise=True,
                           returnByValue=True, userGesture=True, **place)
        if "exceptionDetails" in result:
            details = result["exceptionDetails"]
            text = details.get("exception", {}).get("description") or details.get("text", "")
            first = text.splitlines()[0] if text else "unknown"
            raise BrowserFault(f"The page answered with a fault: {first}.")
        return result["result"].get("value")

    def close(self) -> None:
        """Ends the browser and removes its files."""
        try:
            self._unwanted.add(self.send("Browser.close", of=None))
            seconds = 5.0
        except BrowserFault:
            seconds = 0.5
        finally:
            self._pipe.close(seconds)
