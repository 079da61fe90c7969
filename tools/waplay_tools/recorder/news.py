"""What goes wrong in a page: exceptions, errors on its console, and what it could not load."""

import dataclasses
import re
import time
import urllib.parse

from waplay_tools.chromium import Browser, Event

# What a page loads that its sound may depend on.
NEEDED = {"Document", "Script", "Fetch", "XHR", "Media", "Other", ""}
# What stays open for as long as a page does.
LASTING = {"WebSocket", "EventSource", "Media", "Ping", "Preflight", "SignedExchange"}
MOST_SILENT = 15.0  # seconds without a byte after which a request is taken to stay open


@dataclasses.dataclass
class Trouble:
    """Something that went wrong, in words that follow `the page`."""

    kind: str  # load, exception, console
    text: str
    is_needed: bool = True
    key: object = None


@dataclasses.dataclass
class Request:
    """Something that a page asked for."""

    url: str
    kind: str
    seen: float = dataclasses.field(default_factory=time.monotonic)  # when it last had a byte

    def is_open(self) -> bool:
        """Whether more is to be expected of it."""
        return self.kind not in LASTING and time.monotonic() - self.seen < MOST_SILENT


class News:
    """Follows what a page throws, says and loads."""

    def __init__(self, browser: Browser, origin: str = "") -> None:
        self.browser, self.origin = browser, origin
        self.troubles: list[Trouble] = []
        self.requests: dict[str, Request] = {}
        self.count = 0  # grows with all that happens
        browser.listeners.append(self._hear)

    def close(self) -> None:
        """Stops following."""
        self.browser.listeners.remove(self._hear)

    # What is asked.

    def loading(self) -> list[str]:
        """The addresses that are being loaded."""
        return [self.short(request.url) for request in self.requests.values()
                if request.is_open()]

    def lines(self) -> list[str]:
        """A line for each thing that went wrong, each once."""
        return list(dict.fromkeys(f"the page {trouble.text}" for trouble in self.troubles))

    def exceptions(self) -> list[str]:
        """What the page threw."""
        return [trouble.text for trouble in self.troubles if trouble.kind == "exception"]

    def cause(self) -> str | None:
        """Why the page may have come to nothing: what it needed and could not load first, and what
        it threw first. What it only said on its console comes last."""
        needed = next((trouble.text for trouble in self.troubles
                       if trouble.kind == "load" and trouble.is_needed), None)
        thrown = next(iter(self.exceptions()), None)
        told = next((trouble.text for trouble in self.troubles if trouble.kind == "console"), None)
        return " and ".join(filter(None, [needed, thrown])) or told

    def has_missing_file(self) -> bool:
        """Whether a file is missing of the folder that is served."""
        return any(trouble.kind == "load" and "could not load /" in trouble.text
                   for trouble in self.troubles)

    def short(self, url: str) -> str:
        """An address without that of the served folder."""
        if self.origin and url.startswith(self.origin):
            return urllib.parse.unquote(url[len(self.origin):])
        return url if len(url) <= 200 else url[:200] + "..."

    # What is heard.

    def _hear(self, event: Event) -> None:
        hear = getattr(self, "_hear_" + event.method.replace(".", "_"), None)
        if hear is not None:
            troubles = len(self.troubles)
            hear(event.params)
            if len(self.troubles) != troubles or event.method.startswith("Network."):
                self.count += 1

    def _hear_Network_requestWillBeSent(self, params: dict) -> None:
        url = params["request"]["url"]
        if not url.startswith(("data:", "blob:")):
            self.requests[params["requestId"]] = Request(url, params.get("type", ""))

    def _hear_Network_responseReceived(self, params: dict) -> None:
        response = params["response"]
        if response["status"] < 400:
            return
        status = f"{response['status']} {response['statusText']}".strip()
        self._failed(params["requestId"], response["url"], params.get("type", ""), status)

    def _hear_Network_dataReceived(self, params: dict) -> None:
        if params["requestId"] in self.requests:
            self.requests[params["requestId"]].seen = time.monotonic()

    def _hear_Network_loadingFinished(self, params: dict) -> None:
        self.requests.pop(params["requestId"], None)

    def _hear_Network_loadingFailed(self, params: dict) -> None:
        request = self.requests.pop(params["requestId"], None)
        if params.get("canceled") or request is None:
            return
        reason = params.get("blockedReason") or params.get("corsErrorStatus", {}).get(
            "corsError") or params.get("errorText") or "failed"
        self._failed(params["requestId"], request.url, params.get("type", ""), reason)

    def _failed(self, number: str, url: str, kind: str, reason: str) -> None:
        if urllib.parse.urlsplit(url).path == "/favicon.ico":
            return  # the browser asks for it by itself
        if any(trouble.key == ("load", number) for trouble in self.troubles):
            return
        self.troubles.append(Trouble("load", f"could not load {self.short(url)} ({reason})",
                                     kind in NEEDED, ("load", number)))

    def _hear_Runtime_exceptionThrown(self, params: dict) -> None:
        details = params["exceptionDetails"]
        self.troubles.append(Trouble("exception", f"threw {self._thrown(details)}",
                                     key=("exception", details["exceptionId"])))

    def _hear_Runtime_exceptionRevoked(self, params: dict) -> None:
        key = ("exception", params["exceptionId"])
        self.troubles = [trouble for trouble in self.troubles if trouble.key != key]

    def _hear_Runtime_consoleAPICalled(self, params: dict) -> None:
        if params["type"] not in ("error", "assert"):
            return
        words = [str(each.get("value", each.get("description", ""))) for each in params["args"]]
        first = [*" ".join(words).strip().splitlines(), "an error"][0].rstrip(".")
        self.troubles.append(Trouble("console", f"says: {first}"))

    def _hear_Log_entryAdded(self, params: dict) -> None:
        entry = params["entry"]
        if entry["level"] == "error" and entry["source"] != "network":  # loads are heard above
            text = " ".join(entry["text"].split())
            self.troubles.append(Trouble("console", f"has an error: {text.rstrip('.')}"))

    def _thrown(self, details: dict) -> str:
        """An exception in one line, with its place."""
        thrown = details.get("exception", {})
        preview = {each["name"]: each.get("value", "")
                   for each in thrown.get("preview", {}).get("properties", [])}
        text = thrown.get("description") or str(thrown.get("value", details.get("text", "")))
        text = re.split(r"\n\s+at ", text)[0]
        if thrown.get("className") == "DOMException" and preview.get("message"):
            text = f"{preview.get('name', 'DOMException')}: {preview['message']}"
        text = " ".join(text.split())
        return f"{text.rstrip('.')} ({self._place(details)})"

    def _place(self, details: dict) -> str:
        """The file and the line. What is thrown through the recorder has its page further out."""
        frames = details.get("stackTrace", {}).get("callFrames", [])
        place = next((frame for frame in frames if frame["url"]), details)
        url = place.get("url", "")
        name = self.short(url).rsplit("/", 1)[-1].split("?")[0] or "the page"
        if url.startswith(("blob:", "data:")):
            name = f"a {url[:4]} URL"
        return f"{name}, line {place['lineNumber'] + 1}"
