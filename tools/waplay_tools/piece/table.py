"""A table of many pieces: all pages of a folder, each as the page itself asks to be recorded."""

import argparse
import re
import shlex
import time
from collections.abc import Callable
from html import unescape
from pathlib import Path
from urllib.parse import quote

from waplay_tools.chromium import BrowserFault
from waplay_tools.piece import taking
from waplay_tools.piece.taking import NOTHING, Context, Piece
from waplay_tools.recorder import take
from waplay_tools.recorder.command import Refused, wishes_of

# What a page may say of how it is recorded, as <meta name="waplay" content="--realtime 20">.
ASKED = re.compile(r"<meta\s+name=[\"']?waplay[\"']?\s+content=\"([^\"]*)\"", re.IGNORECASE)
ALLOWED = {"--realtime", "--click", "--do", "--until", "--quiet", "--contexts", "--timeout"}

HEAD = ("| piece | s | verdict | live | from the browser | calls | nodes frozen | took | |\n"
        "|---|---|---|---|---|---|---|---|---|")


def words_of(path: Path) -> list[str]:
    """The words that a page asks to be recorded with. Others than those of ALLOWED are refused."""
    found = ASKED.search(path.read_text(encoding="utf-8", errors="replace"))
    words = shlex.split(unescape(found[1])) if found else []
    for word in words:
        if word.startswith("--") and word.split("=")[0] not in ALLOWED:
            raise Refused(f"{path} asks for {word}, which a page may not.")
    return words


def link_of(name: str, piece: Piece) -> str:
    """A name that leads to the page of a piece, as seen from the working folder."""
    return f"[{name}]({quote(piece.shown.as_posix())})"


def row_of(name: str, context: Context, seconds: float) -> str:
    """The row of a context."""
    recorded, replayed = context.recorded, context.replay
    live = f"{100 * recorded.live:.0f} %"
    apart = "" if replayed.difference is None else f"{replayed.difference:.2g}"
    return (f"| {name} | {recorded.seconds:.4g} | {recorded.verdict} | {live} | {apart} "
            f"| {recorded.calls:,} | {len(recorded.frozen)} | {seconds:.0f} s "
            f"| {context.worst[1]} |")


def take_page(words: argparse.Namespace, made: argparse.ArgumentParser, path: Path,
              tell: Callable[[str], None]) -> Piece:
    """Takes one page as it asks for."""
    own = made.parse_args([str(path), *words_of(path)])
    own.do = own.do and path.parent / own.do
    for name in ("tolerance", "waplay", "chromium", "plain", "root", "loops_as_browser"):
        setattr(own, name, getattr(words, name))
    room = words.out / path.stem if words.out else taking.default_out(str(path))
    return taking.take_piece(own, wishes_of(own), room, tell)


def run(words: argparse.Namespace, made: argparse.ArgumentParser,
        tell: Callable[[str], None]) -> tuple[int, str]:
    """Takes all pages of a folder, and prints a table. Gives the greatest status and its reason."""
    pages = sorted(words.all.glob("*.html"))
    if not pages:
        raise Refused(f"There is no page in {words.all}.")
    worst = (0, "")
    print(HEAD, flush=True)
    for path in pages:
        began = time.monotonic()
        try:
            piece = take_page(words, made, path, tell)
            status, reason = piece.status, piece.reason
            rows = [row_of(link_of(path.stem, piece), context, time.monotonic() - began)
                    for context in piece.contexts]
        except (BrowserFault, Refused, take.NoTake) as fault:
            status, reason = NOTHING, str(fault)
            rows = [f"| {path.stem} | | nothing | | | | | | {fault} |"]
        for row in rows:
            print(row, flush=True)
        worst = max(worst, (status, f"{path.stem}: {reason}"), key=lambda pair: pair[0])
    return worst
