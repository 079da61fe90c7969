"""Serves a folder on 127.0.0.1, on a port that the system chooses."""

import http.server
import threading
import urllib.parse
from pathlib import Path
from typing import Any

TYPES = {".js": "text/javascript", ".mjs": "text/javascript", ".wasm": "application/wasm"}


class QuietHandler(http.server.SimpleHTTPRequestHandler):
    """Serves files without a word, and without letting the browser keep them."""

    extensions_map = {**http.server.SimpleHTTPRequestHandler.extensions_map, **TYPES}

    def log_message(self, *_: Any) -> None:
        """Says nothing."""

    def end_headers(self) -> None:
        """Adds that the file is not to be kept."""
        self.send_header("Cache-Control", "no-store")
        super().end_headers()


class QuietServer(http.server.ThreadingHTTPServer):
    """A server of which no thread keeps the program from ending."""

    daemon_threads = True

    def handle_error(self, *_: Any) -> None:
        """Says nothing: the browser may turn away in the middle of a file."""


class Folder:
    """A folder that is served until it is closed. Use it in a `with`."""

    def __init__(self, root: Path) -> None:
        self.root = root.absolute()
        self.server = QuietServer(
            ("127.0.0.1", 0), lambda *words: QuietHandler(*words, directory=str(self.root)))
        self.origin = f"http://127.0.0.1:{self.server.server_address[1]}"
        threading.Thread(target=self.server.serve_forever, args=(0.05,), daemon=True).start()

    def __enter__(self) -> "Folder":
        return self

    def __exit__(self, *_: object) -> None:
        self.close()

    def url_of(self, page: Path) -> str:
        """The address of a page in the folder."""
        place = page.absolute().relative_to(self.root)
        return f"{self.origin}/{urllib.parse.quote(place.as_posix())}"

    def close(self) -> None:
        """Ends the server."""
        self.server.shutdown()
        self.server.server_close()
